/* Counts the bytes that the library allocates and frees: those of a builder are freed by wenc_free,
 * or by wenc_component, which frees the nested builder; also if a call fails, and if each
 * allocation fails in turn.
 *
 *     cargo build --profile c -p libwenc
 *     gcc -Wl,--wrap=malloc,--wrap=calloc,--wrap=realloc,--wrap=free c/counted.c target/c/libwenc.a
 *     ./a.out */
#include <stdio.h>
#include <stdlib.h>
#include <string.h>

#include "wenc.h"

/* A debug name. */
#define NAMED WENC_NAMED("a debug name that is longer than a first growth")
/* Ends the program if a condition is false. */
#define REQUIRE(what) require((what), #what, __LINE__)

static void require(bool is_so, const char *what, int line) {
  if (!is_so) {
    fprintf(stderr, "counted.c:%d: not so: %s\n", line, what);
    exit(1);
  }
}

/* ---- the allocator: each block begins with its length */

#define FRONT 16

void *__real_malloc(size_t len);
void __real_free(void *at);
void *__wrap_malloc(size_t len);
void *__wrap_calloc(size_t count, size_t len);
void *__wrap_realloc(void *at, size_t len);
void __wrap_free(void *at);

/* The bytes that were allocated and freed, and the number of allocations; that with the number
 * `refused` fails. */
static size_t taken, given, requests, refused;

static bool is_refused(void) { return ++requests == refused; }

void *__wrap_malloc(size_t len) {
  uint8_t *block = is_refused() ? NULL : __real_malloc(FRONT + len);
  if (block == NULL) return NULL;
  memcpy(block, &len, sizeof len);
  taken += len;
  return block + FRONT;
}

void __wrap_free(void *at) {
  size_t len;
  if (at == NULL) return;
  memcpy(&len, (uint8_t *)at - FRONT, sizeof len);
  given += len;
  __real_free((uint8_t *)at - FRONT);
}

void *__wrap_calloc(size_t count, size_t len) {
  void *at = __wrap_malloc(count * len);
  return at == NULL ? NULL : memset(at, 0, count * len);
}

void *__wrap_realloc(void *at, size_t len) {
  size_t before = 0;
  void *to = __wrap_malloc(len);
  if (to == NULL || at == NULL) return to;
  memcpy(&before, (uint8_t *)at - FRONT, sizeof before);
  memcpy(to, at, before < len ? before : len);
  __wrap_free(at);
  return to;
}

/* Returns the number of allocated bytes. */
static size_t held(void) { return taken - given; }

/* ---- builders */

static const uint8_t bytes[200];

static const wenc_part parts[] = {{WENC_TEXT("x"), WENC_REF_PRIMITIVE, WENC_S32},
                                  {WENC_TEXT("yyyy"), WENC_REF_VALUE, 0}};

/* Declares a type by a handle, adds it, and frees the handle. */
static uint32_t declare(wenc_handle *to) {
  wenc_handle types = {NULL};
  uint32_t index, status = wenc_types_new(&types, WENC_INSTANCE);
  if (status == WENC_DONE) status = wenc_type_record(&types, NULL, parts, 2, &index);
  if (status == WENC_DONE)
    status = wenc_type_export(&types, WENC_TEXT("an export"), WENC_REF_TYPE, 0, &index);
  if (status == WENC_DONE) status = wenc_type(to, NAMED, &types, &index);
  wenc_free(&types);
  return status;
}

/* The same with a module type. */
static uint32_t declare_module(wenc_handle *to) {
  static const wenc_pair params[] = {{WENC_CORE_I32, 0}, {WENC_CORE_EXTERNREF, 0}};
  static const wenc_entity function = {0, 0, WENC_CORE_FUNC, 0, 0, false, false, false};
  wenc_handle types = {NULL};
  uint32_t index, status = wenc_types_new(&types, WENC_MODULE);
  if (status == WENC_DONE)
    status = wenc_core_type_function(&types, NULL, params, 2, params, 1, &index);
  if (status == WENC_DONE)
    status =
        wenc_core_type_import(&types, WENC_TEXT("a module"), WENC_TEXT("an import"), &function);
  if (status == WENC_DONE)
    status = wenc_core_type_export(&types, WENC_TEXT("an export"), &function);
  if (status == WENC_DONE) status = wenc_type(to, NAMED, &types, &index);
  wenc_free(&types);
  return status;
}

/* Adds a section of names by a handle, and frees the handle. */
static uint32_t name(wenc_handle *to) {
  static const wenc_index_name functions[] = {{WENC_TEXT("a name that is long"), 5}};
  wenc_handle names = {NULL};
  uint32_t status = wenc_names_new(&names);
  if (status == WENC_DONE) status = wenc_names_component(&names, WENC_TEXT("a component"));
  if (status == WENC_DONE) status = wenc_names_items(&names, WENC_FUNCS, functions, 1);
  if (status == WENC_DONE) status = wenc_section(to, &names);
  wenc_free(&names);
  return status;
}

/* Reads a component, and adds its item. */
static uint32_t copy(wenc_handle *to) {
  static const uint8_t component[] = {0x00, 0x61, 0x73, 0x6d, 0x0d, 0x00, 0x01, 0x00,
                                      0x0a, 0x06, 0x01, 0x00, 0x01, 0x66, 0x01, 0x00};
  wenc_handle listing = {NULL};
  uint32_t index, status = wenc_list(&listing, component, sizeof component, NULL);
  if (status == WENC_DONE) status = wenc_copy(to, NAMED, &listing, 0, 0, &index);
  wenc_free(&listing);
  return status;
}

/* A group of core types, and the tools that made the component. */
static uint32_t group(wenc_handle *to) {
  static const wenc_pair pairs[] = {{WENC_CORE_I32, 0}, {WENC_CORE_EXTERNREF, 0}};
  static const wenc_subtype subtypes[] = {{pairs, 2, NULL, 0, WENC_CORE_STRUCT, 0, false, true},
                                          {pairs, 1, pairs, 2, WENC_CORE_FUNCTION, 0, false, true}};
  uint32_t index;
  return wenc_core_type_group(to, NAMED, subtypes, 2, &index);
}

static uint32_t produce(wenc_handle *to) {
  static const wenc_producer kit[] = {{WENC_TEXT("sdk"), WENC_TEXT("kit"), WENC_TEXT("1")}};
  return wenc_producers(to, kit, 1);
}

/* The call with this number, of CALLS. */
#define CALLS 23

static uint32_t call(wenc_handle *to, int number) {
  static const wenc_part exports[] = {{WENC_TEXT("a run"), WENC_CORE_FUNC, 0}};
  static const uint32_t args[] = {0, 0, 0, 0, 0, 0, 0, 0};
  static const wenc_pair params[] = {{WENC_CORE_I32, 0}, {WENC_CORE_V128, 0}};
  static const uint8_t type[] = {0x42, 0x02, 0x00, 0x60, 0x00, 0x00, 0x01, 0x6b, 0x73};
  static const uint8_t import[] = {0x00, 0x01, 0x66, 0x01, 0x00};
  uint32_t index;
  switch (number) {
    case 0: return wenc_type_record(to, NAMED, parts, 2, &index);
    case 1: return wenc_type_function(to, NAMED, true, parts, 2, WENC_REF_NONE, 0, &index);
    case 2: return wenc_import(to, WENC_TEXT("an import"), WENC_REF_FUNC, 1, &index);
    case 3: return wenc_export(to, WENC_TEXT("an export"), WENC_FUNC, 0, WENC_REF_NONE, 0, &index);
    case 4: return wenc_alias_export(to, 0, WENC_INSTANCE, WENC_TEXT("an alias"), &index);
    case 5: return wenc_alias_core_export(to, NAMED, 0, WENC_CORE_FUNC, WENC_TEXT("run"), &index);
    case 6: return wenc_alias_outer(to, NAMED, WENC_OUTER_TYPE, 1, 0, &index);
    case 7: return wenc_core_module(to, NAMED, bytes, sizeof bytes, &index);
    case 8: return wenc_component_bytes(to, NAMED, bytes, sizeof bytes, &index);
    case 9: return wenc_start(to, 0, args, 8, 1, &index);
    case 10: return wenc_builtin(to, WENC_RESOURCE_NEW, 0, 0, &index);
    case 11: return wenc_core_exports(to, NAMED, exports, 1, &index);
    case 12: return wenc_item(to, WENC_SECTION_TYPE, NAMED, type, sizeof type, &index);
    case 13: return wenc_item(to, WENC_SECTION_IMPORT, NAMED, import, sizeof import, &index);
    case 14: return wenc_custom_section(to, WENC_TEXT("custom"), bytes, sizeof bytes);
    case 15: return declare(to);
    case 16: return declare_module(to);
    case 17: return wenc_core_type_function(to, NAMED, params, 2, params, 1, &index);
    case 18: return name(to);
    case 19: return copy(to);
    case 20: return group(to);
    case 21: return produce(to);
    default: return wenc_append_names(to);
  }
}

/* The number of calls that failed because an allocation failed. */
static size_t refusals;

/* Returns whether a status is WENC_DONE. Otherwise it is WENC_NO_MEMORY. */
static bool is_done(uint32_t status) {
  if (status == WENC_DONE) return true;
  REQUIRE(status == WENC_NO_MEMORY && refused != 0 && requests >= refused);
  refusals += 1;
  return false;
}

/* Returns a builder with an item of each call. A call without memory is repeated. */
static wenc_handle filled(void) {
  wenc_handle builder = {NULL};
  int number;
  if (!is_done(wenc_new(&builder))) REQUIRE(builder.at == NULL && is_done(wenc_new(&builder)));
  for (number = 0; number < CALLS; number++)
    if (!is_done(call(&builder, number))) REQUIRE(is_done(call(&builder, number)));
  REQUIRE(held() > 2 * sizeof bytes);
  return builder;
}

/* Frees it twice: the second time does nothing. */
static void give_back(wenc_handle *builder) {
  size_t before;
  wenc_free(builder);
  before = given;
  wenc_free(builder);
  REQUIRE(builder->at == NULL && given == before);
}

/* Finishes it, and copies its bytes: neither allocates. */
static void finish(wenc_handle *builder) {
  static uint8_t copy[16384];
  size_t len, before = requests;
  REQUIRE(wenc_finish(builder, NULL, &len) == WENC_DONE && len > 0 && len <= sizeof copy);
  REQUIRE(wenc_bytes(builder, copy, len) == WENC_DONE);
  REQUIRE(requests == before);
}

/* A builder is freed empty, with items, after a call that failed, and finished. */
static void freed(void) {
  wenc_handle builder = {NULL};
  uint32_t index;
  REQUIRE(wenc_new(&builder) == WENC_DONE && builder.at != NULL && held() > 0);
  give_back(&builder);
  REQUIRE(held() == 0);
  builder = filled();
  give_back(&builder);
  REQUIRE(held() == 0);
  builder = filled();
  REQUIRE(wenc_item(&builder, WENC_SECTION_TYPE, NAMED, (const uint8_t *)"\x72\x02", 2, &index) ==
          WENC_MALFORMED);
  REQUIRE(wenc_new(&builder) == WENC_BAD_ARGUMENT);
  finish(&builder);
  REQUIRE(call(&builder, 2) == WENC_FINISHED);
  give_back(&builder);
  REQUIRE(held() == 0);
}

/* A component with a nested one whose builder was freed by wenc_component holds as much as one
 * whose nested builder was borrowed and then freed. */
static void given_up(void) {
  wenc_handle outer = filled(), nested = filled();
  uint32_t index;
  size_t after;
  REQUIRE(wenc_component(&outer, NAMED, &nested, &index) == WENC_DONE && nested.at == NULL);
  after = held();
  give_back(&outer);
  REQUIRE(held() == 0);

  outer = filled();
  nested = filled();
  REQUIRE(wenc_component_ref(&outer, NAMED, &nested, &index) == WENC_DONE && nested.at != NULL);
  REQUIRE(held() > after);
  give_back(&nested);
  REQUIRE(held() == after);
  give_back(&outer);
  REQUIRE(held() == 0);
}

/* A nested builder that isn't accepted stays as it was. */
static void not_given_up(void) {
  wenc_handle outer = filled(), nested = filled(), none = {NULL};
  uint32_t index;
  size_t before;
  finish(&nested);
  before = held();
  REQUIRE(wenc_component(&outer, NAMED, &nested, &index) == WENC_FINISHED && nested.at != NULL);
  REQUIRE(wenc_component(&outer, NAMED, &none, &index) == WENC_NO_HANDLE);
  REQUIRE(wenc_component(&none, NAMED, &outer, &index) == WENC_NO_HANDLE && outer.at != NULL);
  REQUIRE(held() == before);
  give_back(&outer);
  give_back(&nested);
  REQUIRE(held() == 0);
}

static bool says_nothing(const wenc_unread *unread) {
  static const uint8_t none[sizeof unread->expected];
  return (unread->section | unread->place | unread->part | unread->item | unread->cause) == 0 &&
         memcmp(unread->expected, none, sizeof none) == 0;
}

/* A listing frees what it allocates, also if the bytes aren't a component. */
static void listed(void) {
  static const uint8_t component[] = {0x00, 0x61, 0x73, 0x6d, 0x0d, 0x00, 0x01, 0x00, 0x0a, 0x06,
                                      0x01, 0x00, 0x01, 0x66, 0x01, 0x00, 0x07, 0x02, 0x01};
  wenc_handle listing = {NULL};
  wenc_unread unread;
  size_t before = taken;
  uint32_t status, functions;
  memset(&unread, 0xee, sizeof unread);
  status = wenc_list(&listing, component, 16, &unread);
  REQUIRE(says_nothing(&unread));
  if (is_done(status)) {
    REQUIRE(wenc_count(&listing, WENC_FUNCS, &functions) == WENC_DONE && functions == 1);
    REQUIRE(taken > before);
  }
  wenc_free(&listing);
  REQUIRE(held() == 0);
  memset(&unread, 0xee, sizeof unread);
  status = wenc_list(&listing, component, 19, &unread);
  /* The section's size is two, but only one byte follows. */
  if (status == WENC_BAD_SECTION) {
    REQUIRE(unread.section == 16 && unread.place == 16 && (unread.part | unread.item) == 0);
    REQUIRE(unread.cause == 19 && wenc_fault_text(component, 19, 16, NULL, 0) == 72);
  } else {
    REQUIRE(!is_done(status) && says_nothing(&unread));
  }
  REQUIRE(listing.at == NULL && held() == 0);
}

/* For a component of one-byte items and debug names, a walk allocates nothing; prints the bytes
 * that a listing holds for an item. */
#define ITEMS 100000

static void walked(void) {
  static const uint8_t head[] = {0x00, 0x61, 0x73, 0x6d, 0x0d, 0x00, 0x01, 0x00,
                                 0x08, 0xa3, 0x8d, 0x06, 0xa0, 0x8d, 0x06};
  static const uint8_t names[] = {0x00, 0x13, 0x0e, 0x63, 0x6f, 0x6d, 0x70, 0x6f, 0x6e, 0x65, 0x6e,
                                  0x74, 0x2d, 0x6e, 0x61, 0x6d, 0x65, 0x00, 0x02, 0x01, 0x63};
  static uint8_t component[sizeof head + ITEMS + sizeof names];
  wenc_handle listing = {NULL};
  wenc_walk walk;
  wenc_names_walk name_walk;
  wenc_listed_item item;
  size_t items = 0, found = 0, before = requests;
  memcpy(component, head, sizeof head);
  memset(component + sizeof head, 0x05, ITEMS);
  memcpy(component + sizeof head + ITEMS, names, sizeof names);
  REQUIRE(wenc_walk_begin(&walk, component, sizeof component) == WENC_DONE);
  while (wenc_walk_section(&walk, NULL) == WENC_DONE)
    for (; wenc_walk_item(&walk, &item) == WENC_DONE; items++)
      if (wenc_walk_names(&name_walk, &item) == WENC_DONE)
        for (; wenc_walk_name(&name_walk, NULL) == WENC_DONE; found++) continue;
  REQUIRE(items == ITEMS + 1 && found == 1 && requests == before);
  REQUIRE(wenc_list(&listing, component, sizeof component, NULL) == WENC_DONE);
  printf("a listing holds %lu bytes for each of %d items of one byte, a walk none\n",
         (unsigned long)(held() / ITEMS), ITEMS);
  REQUIRE(held() < 40 * ITEMS);
  wenc_free(&listing);
}

/* A component in another, listed; if there is no memory to take over the nested one, it is borrowed
 * and freed. */
static void worked(void) {
  wenc_handle outer = filled(), nested = filled();
  uint32_t index;
  if (!is_done(wenc_component(&outer, NAMED, &nested, &index))) {
    REQUIRE(nested.at != NULL && is_done(wenc_component_ref(&outer, NAMED, &nested, &index)));
    give_back(&nested);
  }
  finish(&outer);
  give_back(&outer);
  REQUIRE(held() == 0);
  listed();
}

/* Each allocation fails in turn, until none is left, and one call with it. */
static void swept(void) {
  size_t n;
  for (n = 1; n < 1000; n++) {
    requests = 0;
    refused = n;
    refusals = 0;
    worked();
    if (requests < n) break;
    REQUIRE(refusals == 1);
  }
  refused = 0;
  REQUIRE(n > 20 && n < 1000);
}

int main(void) {
  freed();
  given_up();
  not_given_up();
  listed();
  walked();
  swept();
  REQUIRE(taken > 0 && taken == given);
  return 0;
}
