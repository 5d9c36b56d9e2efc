/* Makes the calls that example.c doesn't, also with bad arguments. Prints the number of items in
 * each space, and the component. */
#include <stdio.h>
#include <stdlib.h>
#include <string.h>

#include "wenc.h"

#define ALL(parts) (parts), sizeof(parts) / sizeof((parts)[0])
#define NONE NULL, 0

static void check(enum wenc_status status) {
  if (status != WENC_DONE) {
    fprintf(stderr, "refused: %s\n", wenc_status_text(status));
    exit(1);
  }
}

/* Returns a debug name, valid until the next call. */
static const wenc_text *named(const char *literal) {
  static wenc_text name;
  name.at = literal;
  name.len = strlen(literal);
  return &name;
}

static void refused(enum wenc_status status) {
  if (status != WENC_BAD_ARGUMENT) {
    fprintf(stderr, "not refused as a bad argument: %u\n", (unsigned)status);
    exit(1);
  }
}

static const uint8_t module_bytes[] = {0x00, 0x61, 0x73, 0x6d, 0x01, 0x00, 0x00, 0x00};

static void build_instances(wenc_handle *builder) {
  static const wenc_part exports[] = {{WENC_TEXT("memory"), WENC_CORE_MEMORY, 0}};
  static const wenc_part args[] = {{WENC_TEXT("env"), 0, 0}, {WENC_TEXT("wasi"), 0, 7}};
  uint32_t index;
  check(wenc_core_module(builder, named("m"), ALL(module_bytes), &index));
  check(wenc_core_exports(builder, NULL, ALL(exports), &index));
  check(wenc_core_instantiate(builder, named("main"), 0, ALL(args), &index));
}

/* The types that the others refer to have the indices 2 and 9. */
static void build_values(wenc_handle *builder) {
  static const wenc_part cases[] = {{WENC_TEXT("none"), WENC_REF_NONE, 0},
                                    {WENC_TEXT("number"), WENC_REF_PRIMITIVE, WENC_U32},
                                    {WENC_TEXT("file"), WENC_REF_VALUE, 2}};
  static const wenc_pair elements[] = {{WENC_REF_PRIMITIVE, WENC_BOOL}, {WENC_REF_VALUE, 2}};
  static const wenc_part flags[] = {{WENC_TEXT("read"), 0, 0}, {WENC_TEXT("write"), 0, 0}};
  static const wenc_part colors[] = {
      {WENC_TEXT("red"), 0, 0}, {WENC_TEXT("green"), 0, 0}, {WENC_TEXT("blue"), 0, 0}};
  uint32_t file, other, own, list, index;
  check(wenc_type_resource(builder, named("file"), true, 3, &file));
  check(wenc_type_resource(builder, NULL, false, 0, &other));
  check(wenc_type_own(builder, named("own"), file, &own));
  check(wenc_type_borrow(builder, NULL, other, &index));
  check(wenc_type_variant(builder, named("v"), ALL(cases), &index));
  check(wenc_type_tuple(builder, NULL, ALL(elements), &index));
  check(wenc_type_flags(builder, NULL, ALL(flags), &index));
  check(wenc_type_enum(builder, NULL, ALL(colors), &index));
  check(wenc_type_primitive(builder, NULL, WENC_CHAR, &index));
  check(wenc_type_list(builder, NULL, WENC_REF_PRIMITIVE, WENC_STRING, &list));
  check(
      wenc_type_fixed_length_list(builder, NULL, WENC_REF_PRIMITIVE, WENC_U8, 300, &index));
  check(wenc_type_map(builder, NULL, WENC_REF_PRIMITIVE, WENC_STRING, WENC_REF_VALUE, list,
                      &index));
  check(wenc_type_option(builder, NULL, WENC_REF_VALUE, list, &index));
  check(wenc_type_result(builder, NULL, WENC_REF_PRIMITIVE, WENC_F64, WENC_REF_NONE, 0,
                         &index));
  check(wenc_type_result(builder, NULL, WENC_REF_NONE, 0, WENC_REF_VALUE, list, &index));
  check(wenc_type_future(builder, NULL, WENC_REF_PRIMITIVE, WENC_S64, &index));
  check(wenc_type_stream(builder, NULL, WENC_REF_NONE, 0, &index));
  if (own != 2 || list != 9) exit(1);
}

/* Returns the index of the type of its functions. */
static uint32_t build_functions(wenc_handle *builder) {
  static const wenc_part params[] = {{WENC_TEXT("path"), WENC_REF_PRIMITIVE, WENC_STRING}};
  static const wenc_pair lifting[] = {{WENC_OPTION_UTF8, 0},    {WENC_OPTION_MEMORY, 0},
                                      {WENC_OPTION_REALLOC, 1}, {WENC_OPTION_POST_RETURN, 2},
                                      {WENC_OPTION_ASYNC, 0},   {WENC_OPTION_CALLBACK, 200}};
  static const wenc_pair lowering[] = {{WENC_OPTION_UTF16, 0},
                                       {WENC_OPTION_COMPACT_UTF16, 0},
                                       {WENC_OPTION_CORE_TYPE, 4},
                                       {WENC_OPTION_GC, 0}};
  wenc_part args[] = {{WENC_TEXT("open"), WENC_FUNC, 0}, {WENC_TEXT("file"), WENC_TYPE, 0}};
  wenc_part items[] = {{WENC_TEXT("wasi:io/streams@0.2.0"), WENC_INSTANCE, 0},
                       {WENC_TEXT("m"), WENC_MODULE, 0},
                       {WENC_TEXT("c"), WENC_COMPONENT, 0},
                       {WENC_TEXT("v"), WENC_VALUE, 0}};
  uint32_t ty, index;
  check(wenc_type_function(builder, NULL, false, ALL(params), WENC_REF_VALUE, 2, &ty));
  check(wenc_lift(builder, named("open"), 0, ty, ALL(lifting), &args[0].number));
  check(wenc_lift(builder, NULL, 5, ty, NONE, &index));
  check(wenc_lower(builder, named("lowered"), args[0].number, ALL(lowering), &index));
  check(wenc_instantiate(builder, named("inner"), 0, ALL(args), &items[0].number));
  check(wenc_export_items(builder, named("world"), ALL(items), &index));
  return ty;
}

static void build_components(wenc_handle *builder) {
  static const uint8_t component[] = {0x00, 0x61, 0x73, 0x6d, 0x0d, 0x00, 0x01, 0x00};
  wenc_handle nested = {NULL};
  uint32_t index;
  check(wenc_component_bytes(builder, named("bytes"), ALL(component), &index));
  check(wenc_new(&nested));
  check(wenc_import(&nested, WENC_TEXT("r"), WENC_REF_RESOURCE, 0, &index));
  check(wenc_component_ref(builder, NULL, &nested, &index));
  wenc_free(&nested);
  check(wenc_alias_instance_export(builder, named("a"), 0, WENC_FUNC, WENC_TEXT("open"),
                                   &index));
  check(wenc_alias_outer(builder, NULL, WENC_OUTER_CORE_TYPE, 1, 200, &index));
  check(wenc_alias_outer(builder, named("o"), WENC_OUTER_COMPONENT, 2, 3, &index));
}

/* `ty` is the index of the type of function 0. */
static void build_named(wenc_handle *builder, uint32_t ty) {
  static const uint32_t args[] = {0, 1};
  static const uint8_t data[] = {1, 2, 3};
  static const uint8_t raw[] = {3, 1, 0x79, 0x2b};
  static const wenc_name poll = {{WENC_TEXT("wasi:io/poll@0.2")},
                                 {WENC_TEXT("x:y/z")},
                                 {WENC_TEXT(".6")},
                                 {WENC_TEXT("id")}};
  static const wenc_name plain = {{WENC_TEXT("plain")}, {NULL, 0}, {NULL, 0}, {NULL, 0}};
  static const wenc_name versioned = {
      {WENC_TEXT("w")}, {NULL, 0}, {WENC_TEXT("v")}, {NULL, 0}};
  uint32_t index;
  check(wenc_import_named(builder, &poll, WENC_REF_FUNC, ty, &index));
  check(wenc_import_named(builder, &plain, WENC_REF_COMPONENT, 18, &index));
  check(wenc_export_named(builder, &versioned, WENC_FUNC, 0, WENC_REF_FUNC, ty, &index));
  check(wenc_item(builder, WENC_SECTION_TYPE, named("t"), (const uint8_t *)"\x42\x00", 2,
                  &index));
  check(wenc_start(builder, 0, ALL(args), 2, &index));
  check(wenc_custom_section(builder, WENC_TEXT("notes"), ALL(data)));
  check(
      wenc_item(builder, WENC_SECTION_CUSTOM, NULL, (const uint8_t *)"\x01x*", 3, &index));
  check(wenc_raw_custom_section(builder, ALL(raw)));
}

static void print_counts(wenc_handle *builder) {
  uint32_t count;
  int space;
  for (space = 0; space < WENC_SPACES; space++) {
    check(wenc_count(builder, (enum wenc_space)space, &count));
    printf(space == 0 ? "%u" : " %u", (unsigned)count);
  }
  putchar('\n');
}

/* Each call has a number that is out of range, or a NULL. */
static void refuse(wenc_handle *builder) {
  static const wenc_pair unnamed[] = {{10, 0}};
  static const wenc_part unknown[] = {{WENC_TEXT("a"), 6, 0}};
  uint32_t index;
  refused(wenc_instantiate(builder, NULL, 0, ALL(unknown), &index));
  refused(wenc_export_items(builder, NULL, ALL(unknown), &index));
  refused(wenc_lift(builder, NULL, 0, 0, ALL(unnamed), &index));
  refused(wenc_lower(builder, NULL, 0, ALL(unnamed), &index));
  refused(wenc_type_variant(builder, NULL, ALL(unknown), &index));
  refused(wenc_type_tuple(builder, NULL, ALL(unnamed), &index));
  refused(wenc_type_primitive(builder, NULL, (enum wenc_primitive)0, &index));
  refused(wenc_type_list(builder, NULL, WENC_REF_NONE, 0, &index));
  refused(wenc_type_fixed_length_list(builder, NULL, WENC_REF_FUNC, 0, 1, &index));
  refused(wenc_type_map(builder, NULL, WENC_REF_NONE, 0, WENC_REF_VALUE, 0, &index));
  refused(wenc_type_map(builder, NULL, WENC_REF_VALUE, 0, WENC_REF_NONE, 0, &index));
  refused(wenc_type_option(builder, NULL, WENC_REF_PRIMITIVE, 0, &index));
  refused(wenc_type_result(builder, NULL, WENC_REF_TYPE, 0, WENC_REF_NONE, 0, &index));
  refused(wenc_type_result(builder, NULL, WENC_REF_NONE, 0, WENC_REF_TYPE, 0, &index));
  refused(wenc_type_future(builder, NULL, WENC_REF_FUNC, 0, &index));
  refused(wenc_type_stream(builder, NULL, WENC_REF_FUNC, 0, &index));
  refused(wenc_alias_outer(builder, NULL, (enum wenc_outer_kind)4, 0, 0, &index));
  refused(wenc_import_named(builder, NULL, WENC_REF_FUNC, 0, &index));
  refused(wenc_item(builder, (enum wenc_section)12, NULL, module_bytes, 1, &index));
  refused(wenc_count(builder, (enum wenc_space)13, &index));
}

int main(void) {
  wenc_handle builder = {NULL};
  const uint8_t *bytes;
  size_t len, k;
  uint32_t ty;
  check(wenc_new(&builder));
  build_instances(&builder);
  build_values(&builder);
  ty = build_functions(&builder);
  build_components(&builder);
  build_named(&builder, ty);
  refuse(&builder);
  print_counts(&builder);
  check(wenc_append_names(&builder));
  check(wenc_finish(&builder, &bytes, &len));
  for (k = 0; k < len; k++) printf("%02x", bytes[k]);
  putchar('\n');
  wenc_free(&builder);
  return 0;
}
