// What each numbered program has: memory for what is passed to it.
typedef unsigned long size_t;

static char heap[4096];
static size_t top;

__attribute__((export_name("cabi_realloc"))) void *
cabi_realloc(void *old, size_t was, size_t align, size_t size) {
  top = (top + align - 1) & -align;
  void *at = heap + top;
  top += size;
  return at;
}
