/* Declares the type of an instance and that of a component, by handles of their own, also with bad
 * arguments; then adds the functions that have options or slots, and two items by their bytes.
 * Prints the component, and then one of core types, with the type of a module. */
#include <stdio.h>
#include <stdlib.h>
#include <string.h>

#include "wenc.h"

#define ALL(parts) (parts), sizeof(parts) / sizeof((parts)[0])

static void require(bool so, const char *what) {
  if (!so) {
    fprintf(stderr, "not so: %s\n", what);
    exit(1);
  }
}

#define REQUIRE(so) require(so, #so)

/* Returns a debug name, valid until the next call. */
static const wenc_text *named(const char *literal) {
  static wenc_text name;
  name.at = literal;
  name.len = strlen(literal);
  return &name;
}

/* Requires that the call succeeds and writes this index. */
#define ADDS(call, expected)                             \
  do {                                                   \
    uint32_t index = 99;                                 \
    REQUIRE((call) == WENC_DONE && index == (expected)); \
  } while (0)

/* Requires that the call has a bad argument. */
#define REFUSES(call) REQUIRE((call) == WENC_BAD_ARGUMENT)

/* An interface: a resource, a record, and a function of both. */
static void declare_interface(wenc_handle *types) {
  static const wenc_part fields[] = {{WENC_TEXT("of"), WENC_REF_VALUE, 1},
                                     {WENC_TEXT("name"), WENC_REF_PRIMITIVE, WENC_STRING}};
  static const wenc_part params[] = {{WENC_TEXT("open"), WENC_REF_VALUE, 3}};
  static const wenc_part cases[] = {{WENC_TEXT("up"), 0, 0}, {WENC_TEXT("off"), 0, 0}};
  REQUIRE(wenc_types_new(types, WENC_INSTANCE) == WENC_DONE);
  ADDS(wenc_type_export(types, WENC_TEXT("file"), WENC_REF_RESOURCE, 0, &index), 0);
  ADDS(wenc_type_own(types, NULL, 0, &index), 1);
  ADDS(wenc_type_record(types, NULL, ALL(fields), &index), 2);
  ADDS(wenc_type_export(types, WENC_TEXT("entry"), WENC_REF_TYPE, 2, &index), 3);
  ADDS(wenc_type_enum(types, NULL, ALL(cases), &index), 4);
  ADDS(wenc_type_function(types, NULL, true, ALL(params), WENC_REF_VALUE, 1, &index), 5);
  ADDS(wenc_type_export(types, WENC_TEXT("open"), WENC_REF_FUNC, 5, &index), 0);
  ADDS(wenc_alias_outer(types, NULL, WENC_OUTER_TYPE, 1, 0, &index), 6);
  ADDS(wenc_type_list(types, NULL, WENC_REF_VALUE, 6, &index), 7);
}

/* A component that imports the interface and exports it, after a type of its own. */
static void declare_component(wenc_handle *types, wenc_handle *interface) {
  REQUIRE(wenc_types_new(types, WENC_COMPONENT) == WENC_DONE);
  ADDS(wenc_type_primitive(types, NULL, WENC_U32, &index), 0);
  ADDS(wenc_type(types, NULL, interface, &index), 1);
  ADDS(wenc_import(types, WENC_TEXT("from"), WENC_REF_INSTANCE, 1, &index), 0);
  ADDS(wenc_alias_export(types, 0, WENC_TYPE, WENC_TEXT("file"), &index), 2);
  ADDS(wenc_type_borrow(types, NULL, 2, &index), 3);
  ADDS(wenc_type_export(types, WENC_TEXT("to"), WENC_REF_INSTANCE, 1, &index), 1);
}

/* Declarations that an instance type doesn't accept, and handles that aren't types. */
static void pass_others(wenc_handle *types, wenc_handle *builder) {
  uint32_t index = 7;
  size_t len;
  wenc_handle none = {NULL};
  REFUSES(wenc_import(types, WENC_TEXT("f"), WENC_REF_FUNC, 0, &index));
  REFUSES(wenc_type_own(types, named("n"), 0, &index));
  REFUSES(wenc_core_module(types, NULL, NULL, 0, &index));
  REFUSES(wenc_export(types, WENC_TEXT("f"), WENC_FUNC, 0, WENC_REF_NONE, 0, &index));
  REFUSES(wenc_component_ref(builder, NULL, types, &index));
  REFUSES(wenc_finish(types, NULL, &len));
  REFUSES(wenc_count(types, WENC_FUNCS, &index));
  REFUSES(wenc_types_new(types, WENC_INSTANCE));
  REQUIRE(wenc_types_new(&none, WENC_FUNC) == WENC_BAD_ARGUMENT && none.at == NULL);
  REFUSES(wenc_type_export(builder, WENC_TEXT("f"), WENC_REF_FUNC, 0, &index));
  REQUIRE(wenc_type(builder, NULL, &none, &index) == WENC_NO_HANDLE);
  REQUIRE(index == 7);
}

static void count(wenc_handle *types, enum wenc_space space, uint32_t expected) {
  uint32_t number;
  REQUIRE(wenc_count(types, space, &number) == WENC_DONE && number == expected);
}

/* Builtins with options and with slots. */
static void add_functions(wenc_handle *builder) {
  static const wenc_pair options[] = {{WENC_OPTION_UTF8, 0}, {WENC_OPTION_MEMORY, 2}};
  static const wenc_pair unknown[] = {{10, 0}};
  uint32_t index = 7;
  ADDS(wenc_builtin_with(builder, WENC_STREAM_READ, 0, ALL(options), &index), 0);
  ADDS(wenc_builtin_with(builder, WENC_STREAM_WRITE, 1, options, 1, &index), 1);
  ADDS(wenc_builtin_with(builder, WENC_FUTURE_READ, 200, ALL(options), &index), 2);
  ADDS(wenc_builtin_with(builder, WENC_FUTURE_WRITE, 3, options, 0, &index), 3);
  ADDS(wenc_builtin_with(builder, WENC_ERROR_CONTEXT_NEW, 9, ALL(options), &index), 4);
  ADDS(wenc_builtin_with(builder, WENC_ERROR_CONTEXT_DEBUG_MESSAGE, 9, ALL(options), &index), 5);
  ADDS(wenc_task_return(builder, WENC_REF_PRIMITIVE, WENC_STRING, ALL(options), &index), 6);
  ADDS(wenc_task_return(builder, WENC_REF_NONE, 0, options, 0, &index), 7);
  ADDS(wenc_context(builder, WENC_CONTEXT_GET, WENC_CORE_I32, 0, &index), 8);
  ADDS(wenc_context(builder, WENC_CONTEXT_SET, WENC_CORE_I64, 200, &index), 9);
  REFUSES(wenc_builtin_with(builder, WENC_STREAM_READ, 0, ALL(unknown), &index));
  REFUSES(wenc_builtin_with(builder, (enum wenc_function_with)7, 0, options, 0, &index));
  REFUSES(wenc_task_return(builder, WENC_REF_FUNC, 0, options, 0, &index));
  REFUSES(wenc_context(builder, WENC_CONTEXT_GET, WENC_CORE_FUNCREF, 0, &index));
  REQUIRE(index == 7);
}

/* A core instance that exports a function, and a function that is lifted, with a padded index. */
static void add_by_texts(wenc_handle *builder) {
  static const uint8_t exports[] = {0x01, 0x01, 0x01, 'f', 0x00, 0x09};
  static const uint8_t lifted[] = {0x00, 0x00, 0x89, 0x00, 0x01, 0x00, 0x01};
  ADDS(wenc_item(builder, WENC_SECTION_CORE_INSTANCE, NULL, ALL(exports), &index), 0);
  ADDS(wenc_item(builder, WENC_SECTION_CANON, named("lifted"), ALL(lifted), &index), 0);
}

/* A module with a type of its own and one of the component around it. */
static void declare_module(wenc_handle *types) {
  static const wenc_pair params[] = {{WENC_CORE_I32, 0}};
  static const wenc_entity function = {0, 0, WENC_CORE_FUNC, 1, 0, false, false, false};
  static const wenc_entity memory = {1, 200, WENC_CORE_MEMORY, 0, 0, true, false, true};
  static const wenc_entity table = {3,    9,    WENC_CORE_TABLE, WENC_CORE_FUNCREF, 0, false,
                                    true, false};
  static const wenc_entity global = {
      0, 0, WENC_CORE_GLOBAL, WENC_CORE_F64 | WENC_CORE_MUTABLE, 0, false, false, false};
  static const wenc_entity tag = {0, 0, WENC_CORE_TAG, 0, 0, false, false, false};
  static const wenc_entity exported = {0, 0, WENC_CORE_FUNC, 0, 0, false, false, false};
  REQUIRE(wenc_types_new(types, WENC_MODULE) == WENC_DONE);
  ADDS(wenc_core_type_function(types, NULL, ALL(params), params, 0, &index), 0);
  ADDS(wenc_alias_outer(types, NULL, WENC_OUTER_CORE_TYPE, 1, 0, &index), 1);
  REQUIRE(wenc_core_type_import(types, WENC_TEXT("env"), WENC_TEXT("f"), &function) == WENC_DONE);
  REQUIRE(wenc_core_type_import(types, WENC_TEXT("env"), WENC_TEXT("memory"), &memory) ==
          WENC_DONE);
  REQUIRE(wenc_core_type_import(types, WENC_TEXT("env"), WENC_TEXT("table"), &table) == WENC_DONE);
  REQUIRE(wenc_core_type_import(types, WENC_TEXT("env"), WENC_TEXT("global"), &global) ==
          WENC_DONE);
  REQUIRE(wenc_core_type_export(types, WENC_TEXT("tag"), &tag) == WENC_DONE);
  REQUIRE(wenc_core_type_export(types, WENC_TEXT("main"), &exported) == WENC_DONE);
}

/* Declarations that a module type doesn't accept, and handles that don't accept its own. */
static void pass_to_module(wenc_handle *types, wenc_handle *builder) {
  static const wenc_pair known[] = {{WENC_CORE_I32, 0}};
  static const wenc_pair unknown[] = {{WENC_CORE_I32, 0}, {0x71, 0}};
  static const wenc_entity function = {0, 0, WENC_CORE_FUNC, 0, 0, false, false, false};
  static const wenc_entity kind = {0, 0, 5, 0, 0, false, false, false};
  static const wenc_entity table = {0, 0, WENC_CORE_TABLE, WENC_CORE_I32, 0, false, false, false};
  static const wenc_entity global = {0, 0, WENC_CORE_GLOBAL, 0x71, 0, false, false, false};
  uint32_t index = 7;
  wenc_handle none = {NULL}, other = {NULL};
  REQUIRE(wenc_types_new(&other, WENC_INSTANCE) == WENC_DONE);
  REFUSES(wenc_import(types, WENC_TEXT("f"), WENC_REF_FUNC, 0, &index));
  REFUSES(wenc_type_export(types, WENC_TEXT("f"), WENC_REF_FUNC, 0, &index));
  REFUSES(wenc_type_own(types, NULL, 0, &index));
  REFUSES(wenc_type(types, NULL, &other, &index));
  REFUSES(wenc_alias_outer(types, NULL, WENC_OUTER_TYPE, 1, 0, &index));
  REFUSES(wenc_alias_export(types, 0, WENC_TYPE, WENC_TEXT("t"), &index));
  REFUSES(wenc_core_type_function(types, named("n"), ALL(known), ALL(known), &index));
  REFUSES(wenc_core_type_function(types, NULL, ALL(unknown), ALL(known), &index));
  REFUSES(wenc_core_type_function(types, NULL, ALL(known), ALL(unknown), &index));
  REFUSES(wenc_count(types, WENC_TYPES, &index));
  REFUSES(wenc_core_type_import(types, WENC_TEXT("m"), WENC_TEXT("n"), &kind));
  REFUSES(wenc_core_type_import(types, WENC_TEXT("m"), WENC_TEXT("n"), &table));
  REFUSES(wenc_core_type_export(types, WENC_TEXT("n"), &global));
  REQUIRE(wenc_core_type_import(types, WENC_TEXT("m"), WENC_TEXT("\xff"), &function) ==
          WENC_MALFORMED);
  REFUSES(wenc_core_type_import(&other, WENC_TEXT("m"), WENC_TEXT("n"), &function));
  REFUSES(wenc_core_type_export(builder, WENC_TEXT("n"), &function));
  REQUIRE(wenc_core_type_export(&none, WENC_TEXT("n"), &function) == WENC_NO_HANDLE);
  REQUIRE(index == 7);
  wenc_free(&other);
}

/* An instance that exports a module, and a component that imports one, each after a core type. */
static void declare_around(wenc_handle *instance, wenc_handle *component, wenc_handle *module) {
  static const wenc_pair of_instance[] = {{WENC_CORE_F32, 0}};
  static const wenc_pair of_component[] = {{WENC_CORE_FUNCREF, 0}};
  REQUIRE(wenc_types_new(instance, WENC_INSTANCE) == WENC_DONE);
  ADDS(wenc_core_type_function(instance, NULL, of_instance, 0, ALL(of_instance), &index), 0);
  ADDS(wenc_type(instance, NULL, module, &index), 1);
  ADDS(wenc_type_export(instance, WENC_TEXT("made"), WENC_REF_MODULE, 1, &index), 0);
  REQUIRE(wenc_types_new(component, WENC_COMPONENT) == WENC_DONE);
  ADDS(wenc_core_type_function(component, NULL, ALL(of_component), of_component, 0, &index), 0);
  ADDS(wenc_type(component, NULL, module, &index), 1);
  ADDS(wenc_alias_outer(component, NULL, WENC_OUTER_CORE_TYPE, 1, 0, &index), 2);
  ADDS(wenc_import(component, WENC_TEXT("from"), WENC_REF_MODULE, 1, &index), 0);
}

/* A component with these types. */
static void add_core_types(wenc_handle *builder) {
  static const wenc_pair params[] = {{WENC_CORE_I32, 0}, {WENC_CORE_EXTERNREF, 0}};
  static const wenc_pair results[] = {{WENC_CORE_I64, 0}, {WENC_CORE_V128, 0}};
  wenc_handle module = {NULL}, instance = {NULL}, component = {NULL};
  declare_module(&module);
  pass_to_module(&module, builder);
  count(&module, WENC_CORE_TYPES, 2);
  declare_around(&instance, &component, &module);
  count(&component, WENC_CORE_TYPES, 3);
  ADDS(wenc_core_type_function(builder, named("two"), ALL(params), ALL(results), &index), 0);
  ADDS(wenc_type(builder, named("module"), &module, &index), 1);
  ADDS(wenc_type(builder, NULL, &instance, &index), 0);
  ADDS(wenc_type(builder, NULL, &component, &index), 1);
  ADDS(wenc_import(builder, WENC_TEXT("given"), WENC_REF_MODULE, 1, &index), 0);
  REQUIRE(wenc_append_names(builder) == WENC_DONE);
  wenc_free(&module);
  wenc_free(&instance);
  wenc_free(&component);
}

/* Finishes the component, prints it, and frees the builder. */
static void print(wenc_handle *builder) {
  const uint8_t *bytes;
  size_t len, i;
  REQUIRE(wenc_finish(builder, &bytes, &len) == WENC_DONE);
  for (i = 0; i < len; i++) printf("%02x", bytes[i]);
  printf("\n");
  wenc_free(builder);
}

int main(void) {
  wenc_handle builder = {NULL}, interface = {NULL}, world = {NULL};
  REQUIRE(wenc_new(&builder) == WENC_DONE);
  declare_interface(&interface);
  pass_others(&interface, &builder);
  declare_component(&world, &interface);
  count(&interface, WENC_TYPES, 8);
  count(&world, WENC_INSTANCES, 2);
  count(&world, WENC_CORE_TYPES, 0);
  ADDS(wenc_type_primitive(&builder, NULL, WENC_U8, &index), 0);
  ADDS(wenc_type(&builder, named("interface"), &interface, &index), 1);
  ADDS(wenc_type(&builder, NULL, &world, &index), 2);
  ADDS(wenc_import(&builder, WENC_TEXT("host"), WENC_REF_INSTANCE, 1, &index), 0);
  add_functions(&builder);
  add_by_texts(&builder);
  wenc_free(&interface);
  wenc_free(&world);
  REQUIRE(interface.at == NULL && world.at == NULL);
  print(&builder);
  REQUIRE(wenc_new(&builder) == WENC_DONE);
  add_core_types(&builder);
  print(&builder);
  return 0;
}
