// The core module in which the components of `features.rs` and `random.rs` have their functions.
#define E(name) __attribute__((export_name(name)))
E("run") void run(void) {}
E("num") int num(void) { return 1; }
E("text") int text(int a, int b) { return a; }
E("post") void post(int a) {}
E("drop") void drop(int a) {}
E("callback") int callback(int a, int b, int c) { return 0; }
E("cabi_realloc") int cabi_realloc(int a, int b, int c, int d) { return 0; }
