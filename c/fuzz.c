/* Random calls in random order with any arguments, while allocations fail at random. A call that
 * succeeds is repeated, with the same arguments and all memory, by a second handle: both have the
 * same indices, and the same bytes at the end. So a call that failed changed nothing. All memory is
 * freed.
 *
 *     c/fuzz.py >cases.h
 *     cargo build --profile c -p libwenc
 *     gcc -I c -I . -g -fsanitize=address,undefined -Wl,--wrap=malloc,--wrap=calloc \
 *         -Wl,--wrap=realloc,--wrap=free -o fuzz c/fuzz.c target/c/libwenc.a
 *     ./fuzz FIRST HOW_MANY */
#include <stdio.h>
#include <stdlib.h>
#include <string.h>

#include "wenc.h"

/* The seed of the current sequence of calls, and the name of the current call. */
static uint64_t seed, state;
static const char *name;
/* The names of its parameters, with a space before and after each. */
static const char *parameters;

#define REQUIRE(so) require((so), #so, __LINE__)

static void require(bool is_so, const char *what, int line) {
  if (is_so) return;
  fprintf(stderr, "fuzz.c:%d: sequence %lu, %s: not so: %s\n", line, (unsigned long)seed, name,
          what);
  abort();
}

/* ---- memory: the library's blocks are counted, and one allocation may fail. */

void *__real_malloc(size_t len);
void *__real_calloc(size_t count, size_t len);
void *__real_realloc(void *at, size_t len);
void __real_free(void *at);
void *__wrap_malloc(size_t len);
void *__wrap_calloc(size_t count, size_t len);
void *__wrap_realloc(void *at, size_t len);
void __wrap_free(void *at);

static bool is_inside, was_refused;
static long blocks, until_refusal = -1;

static bool is_refused(void) {
  if (!is_inside || until_refusal < 0 || until_refusal-- > 0) return false;
  return was_refused = true;
}

static void *counted(void *at) {
  if (is_inside && at != NULL) blocks++;
  return at;
}

void *__wrap_malloc(size_t len) { return is_refused() ? NULL : counted(__real_malloc(len)); }

void *__wrap_calloc(size_t count, size_t len) {
  return is_refused() ? NULL : counted(__real_calloc(count, len));
}

void *__wrap_realloc(void *at, size_t len) {
  if (is_refused()) return NULL;
  return at == NULL ? counted(__real_realloc(at, len)) : __real_realloc(at, len);
}

void __wrap_free(void *at) {
  if (is_inside && at != NULL) blocks--;
  __real_free(at);
}

/* ---- random arguments, each in a block of its own length, so that reads past its end are seen */

static uint32_t below(uint32_t limit) {
  uint64_t mixed;
  state += 0x9e3779b97f4a7c15u;
  mixed = (state ^ state >> 30) * 0xbf58476d1ce4e5b9u;
  mixed = (mixed ^ mixed >> 27) * 0x94d049bb133111ebu;
  return (uint32_t)(mixed >> 32) % limit;
}

static void *kept[256];
static size_t kept_len;

/* Sometimes it is NULL, also where that isn't allowed. */
static void *keep(const void *from, size_t len) {
  void *at = below(len == 0 ? 2 : 200) == 0 ? NULL : __real_malloc(len);
  if (at != NULL) memcpy(at, from, len);
  REQUIRE(kept_len < sizeof kept / sizeof kept[0]);
  return kept[kept_len++] = at;
}

static void drop_kept(void) {
  while (kept_len > 0) __real_free(kept[--kept_len]);
}

static bool a_flag(void) { return below(2) == 1; }

static uint32_t a_number(void) {
  switch (below(8)) {
    case 0: return below(UINT32_MAX);
    case 1: return below(UINT32_MAX) >> below(32);
    case 2: return UINT32_MAX;
    default: return below(4);
  }
}

/* Mostly a number with a meaning. */
static uint32_t a_kind(void) { return below(40) == 0 ? a_number() : below(below(4) ? 9 : 45); }

static size_t a_size(void) { return below(10) == 0 ? SIZE_MAX - below(3) : below(3); }

#define LIST(type, kind) \
  typedef struct {       \
    const type *at;      \
    size_t len;          \
  } list_of_##kind;

LIST(char, text)
LIST(uint8_t, bytes)
LIST(uint32_t, numbers)
LIST(wenc_part, part)
LIST(wenc_pair, pair)
LIST(wenc_name, name)
LIST(wenc_entity, entity)
LIST(wenc_subtype, subtype)
LIST(wenc_producer, producer)
LIST(wenc_index_name, index_name)

static list_of_text some_text(void) {
  static const char *const characters[] = {
      "a", "b", "-", "\xc3\xa9", "\xe2\x82\xac", "\xf0\x9f\x98\x80"};
  char text[100] = "";
  list_of_text list;
  uint32_t k = below(4) ? below(6) : below(20);
  while (k-- > 0) strcat(text, characters[below(6)]);
  if (below(60) == 0) strcat(text, "\xff");
  list.len = strlen(text);
  list.at = (const char *)keep(text, list.len);
  return list;
}

static wenc_text a_text(void) {
  list_of_text list = some_text();
  wenc_text text;
  text.at = list.at, text.len = list.len;
  return text;
}

static wenc_text an_option(void) {
  static const wenc_text none = {NULL, 0};
  return below(3) == 0 ? a_text() : none;
}

static const wenc_text *a_debug_name(void) {
  wenc_text name = an_option();
  return below(2) ? NULL : (const wenc_text *)keep(&name, sizeof name);
}

static list_of_bytes some_bytes(void) {
  /* Items, as wenc_item reads them. */
  static const char *const items[] = {
      "\x01"
      "cd",
      "\x6b\x73",
      "\x05",
      "\x7f",
      "\x01\x6d\x73",
      ""};
  uint8_t bytes[300];
  const char *item = items[below(6)];
  list_of_bytes list;
  size_t k;
  list.len = below(4) ? strlen(item) : below(sizeof bytes);
  for (k = 0; k < list.len; k++)
    bytes[k] = (uint8_t)(k < strlen(item) ? (uint8_t)item[k] : below(256));
  if (list.len > 0 && below(5) == 0) bytes[below((uint32_t)list.len)] ^= (uint8_t)below(256);
  list.at = (const uint8_t *)keep(bytes, list.len);
  return list;
}

/* A list of values, each of which is the expression `value`. */
#define SOME(type, of, value)                                      \
  static list_of_##of some_##of(void) {                            \
    type values[8];                                                \
    list_of_##of list;                                             \
    uint32_t k, kind = a_kind();                                   \
    (void)kind;                                                    \
    list.len = below(5);                                           \
    for (k = 0; k < list.len; k++) values[k] = value;              \
    list.at = (const type *)keep(values, list.len * sizeof(type)); \
    return list;                                                   \
  }

static wenc_part a_part(uint32_t kind) {
  list_of_text text = some_text();
  wenc_part part = {NULL, 0, 0, 0};
  part.name = text.at;
  part.name_len = text.len;
  part.kind = below(30) == 0 ? a_kind() : kind;
  part.number = kind == WENC_REF_PRIMITIVE ? 1 + below(14) : a_number();
  return part;
}

static wenc_pair a_pair(uint32_t kind) {
  wenc_pair pair = {0, 0};
  pair.kind = (below(30) == 0 ? a_kind() : kind) | (below(6) == 0 ? 0x100u << below(2) : 0);
  pair.number = kind == WENC_REF_PRIMITIVE ? 1 + below(14) : a_number();
  return pair;
}

static wenc_producer a_producer(void) {
  wenc_producer producer = {NULL, 0, NULL, 0, NULL, 0};
  list_of_text field = some_text(), tool = some_text(), version = some_text();
  producer.field = field.at, producer.field_len = field.len;
  producer.tool = tool.at, producer.tool_len = tool.len;
  producer.version = version.at, producer.version_len = version.len;
  return producer;
}

static wenc_index_name an_index_name(void) {
  wenc_index_name named = {NULL, 0, 0};
  list_of_text text = some_text();
  named.name = text.at, named.name_len = text.len;
  named.index = a_number();
  return named;
}

SOME(uint32_t, numbers, a_number())
SOME(wenc_part, part, a_part(kind))
SOME(wenc_pair, pair, a_pair(kind))
SOME(wenc_producer, producer, a_producer())
SOME(wenc_index_name, index_name, an_index_name())

static wenc_subtype a_subtype(void) {
  wenc_subtype type = {NULL, 0, (const wenc_pair *)1, SIZE_MAX, 0, 0, false, false};
  list_of_pair fields = some_pair(), results;
  type.kind = below(20) == 0 ? a_number() : 1 + below(3);
  type.fields = fields.at, type.fields_len = fields.len;
  if (type.kind == WENC_CORE_FUNCTION) {
    results = some_pair();
    type.results = results.at, type.results_len = results.len;
  }
  type.has_supertype = a_flag(), type.is_final = a_flag();
  type.supertype = a_number();
  return type;
}

SOME(wenc_subtype, subtype, a_subtype())

/* One value, or NULL. */
#define ONE(type, kind, value)                                          \
  static list_of_##kind one_##kind(void) {                              \
    type one = value;                                                   \
    list_of_##kind list = {NULL, 1};                                    \
    if (below(20) != 0) list.at = (const type *)keep(&one, sizeof one); \
    return list;                                                        \
  }

static wenc_name a_name(void) {
  wenc_name whole;
  whole.name = a_text(), whole.implements = an_option();
  whole.version_suffix = an_option(), whole.external_id = an_option();
  return whole;
}

static wenc_entity an_entity(void) {
  wenc_entity entity;
  memset(&entity, 0, sizeof entity);
  entity.minimum = a_number();
  entity.maximum = (uint64_t)a_number() << 31;
  entity.kind = below(20) == 0 ? a_number() : below(5);
  entity.type = a_kind() | (a_flag() ? WENC_CORE_NULLABLE : 0);
  entity.index = a_number();
  entity.has_maximum = a_flag(), entity.is_long = a_flag(), entity.is_shared = a_flag();
  return entity;
}

ONE(wenc_name, name, a_name())
ONE(wenc_entity, entity, an_entity())
ONE(wenc_subtype, subtype, a_subtype())

#include "cases.h"

/* ---- sequences of calls */

/* A handle, and one that makes the same calls with all memory. */
typedef struct {
  wenc_handle handle, shadow;
} two;

#define HANDLES 5

static unsigned long calls, accepted, refusals, compared, read_items, visited, blamed, said;

/* Begins a session, whose kind depends on a number. */
static enum wenc_status begin(uint32_t number, wenc_handle *handle) {
  static const uint8_t component[] = {0, 'a', 's', 'm', 13, 0, 1, 0, 10, 6, 1, 0, 1, 'f', 1, 0};
  static const enum wenc_kind kinds[] = {WENC_MODULE, WENC_COMPONENT, WENC_INSTANCE};
  if (number < 12) return wenc_new(handle);
  if (number < 18) return wenc_types_new(handle, kinds[number % 3]);
  if (number < 30) return wenc_section_new(handle, (enum wenc_section)(number - 18));
  if (number < 32) return wenc_names_new(handle);
  if (number < 34) return wenc_list(handle, component, sizeof component, NULL);
  return wenc_by_hand_new(handle);
}

/* Checks that a call may return this status. */
static void check_status(enum wenc_status status) {
  REQUIRE((unsigned)status <= WENC_NO_HANDLE && status != WENC_UNFINISHED);
  REQUIRE(status != WENC_NO_MEMORY || was_refused);
  if (status == WENC_NO_MEMORY) refusals++;
}

/* Checks the error of a call: its status and, if an argument is wrong, the name of a parameter. */
static void check_error(const wenc_handle *handle, enum wenc_status status) {
  char named[64];
  wenc_error error;
  if (handle->at == NULL) {
    REQUIRE(status == WENC_NO_HANDLE && wenc_last_error(handle, &error) == WENC_NO_HANDLE);
    return;
  }
  REQUIRE(wenc_last_error(handle, &error) == WENC_DONE && error.status == status);
  if (error.argument == NULL) {
    REQUIRE(status == WENC_NO_MEMORY || status == WENC_TOO_MANY || status == WENC_TOO_LARGE);
    return;
  }
  snprintf(named, sizeof named, " %s ", error.argument);
  REQUIRE(strstr(parameters, named) != NULL);
  blamed++;
}

static void begin_two(two *one) {
  uint32_t number = below(36);
  enum wenc_status status;
  name = "begin";
  status = begin(number, &one->handle);
  check_status(status);
  REQUIRE((status == WENC_DONE) == (one->handle.at != NULL));
  until_refusal = -1;
  if (status == WENC_DONE) REQUIRE(begin(number, &one->shadow) == WENC_DONE);
}

/* Checks the sentence about a section that can't be read: it is cut off to the size. */
static void check_sentence(const uint8_t *bytes, size_t len, size_t section, bool is_bad) {
  char text[256];
  size_t size = below(sizeof text), expected;
  memset(text, 1, sizeof text);
  expected = wenc_fault_text(bytes, len, section, text, size);
  REQUIRE((expected > 0) == is_bad && expected < sizeof text);
  REQUIRE(text[size] == 1);
  if (size > 0) REQUIRE(strlen(text) == (expected < size ? expected : size - 1));
  if (is_bad) said++;
}

/* The numbers of nodes that are left to visit and of nodes within others, and their bytes. */
typedef struct {
  uint32_t left;
  uint64_t within;
  const uint8_t *bytes;
  size_t len;
} nodes;

/* Checks that each node but the item is within an earlier one, and its bytes in the component. */
static bool check_node(void *context, const wenc_node *node) {
  nodes *all = (nodes *)context;
  REQUIRE(all->left > 0 && node->kind <= WENC_NODE_STRUCT && node->space <= WENC_SPACES);
  REQUIRE(node->place <= all->len && node->len <= all->len - node->place);
  REQUIRE((node->depth == 0) == (all->within == 0) && node->scope <= WENC_SCOPE_TYPE);
  if (node->kind == WENC_NODE_TEXT || node->kind == WENC_NODE_BYTES)
    REQUIRE(memcmp(node->text.at, all->bytes + node->place, node->text.len) == 0);
  if (all->within == 0) all->within = 1;
  all->within--;
  if (node->kind != WENC_NODE_NUMBER && node->kind != WENC_NODE_FLAG &&
      node->kind != WENC_NODE_INDEX)
    all->within += node->number;
  visited++;
  return --all->left > 0;
}

/* Visits nodes, all or a few. Returns whether an item is read. */
static bool check_nodes(const wenc_walk *walk, const wenc_listed_item *item) {
  nodes all = {UINT32_MAX, 0, NULL, 0};
  char text[256];
  enum wenc_status status;
  bool is_within = item->place <= walk->len && item->len <= walk->len - item->place;
  all.bytes = walk->bytes, all.len = walk->len;
  if (a_flag()) all.left = 1 + below(20);
  status = wenc_walk_nodes(walk, item, check_node, &all);
  if (!is_within) {
    REQUIRE(status == WENC_BAD_ARGUMENT);
    return false;
  }
  /* The data of a custom section may be malformed. */
  if (wenc_item_fault_text(item->section, walk->bytes + item->place, item->len, text,
                           sizeof text) == 0) {
    REQUIRE(status == (item->section > WENC_SECTION_EXPORT ? WENC_BAD_ARGUMENT : WENC_DONE));
  } else {
    REQUIRE(item->section == WENC_SECTION_CUSTOM || status == WENC_MALFORMED ||
            status == WENC_TOO_DEEP);
    said++;
  }
  if (status == WENC_DONE) REQUIRE(all.left == 0 || all.within == 0);
  return status == WENC_DONE;
}

/* Compares a walk over bytes with a listing of them: the same items, or the same status. */
static void compare_walk(const uint8_t *bytes, size_t len) {
  wenc_handle listing = {NULL};
  wenc_walk walk;
  wenc_listed_section section, section_row;
  wenc_listed_item item, row;
  wenc_unread unread;
  size_t sections, items;
  enum wenc_status expected = wenc_list(&listing, bytes, len, &unread);
  enum wenc_status status = wenc_walk_begin(&walk, bytes, len);
  name = "walk";
  REQUIRE(unread.section <= unread.place && unread.place <= unread.cause && unread.cause <= len);
  check_sentence(bytes, len, unread.section, expected != WENC_DONE);
  for (sections = 0; status == WENC_DONE; sections++) {
    if ((status = wenc_walk_section(&walk, &section)) != WENC_DONE) break;
    if (expected == WENC_DONE) {
      REQUIRE(wenc_section_at(&listing, sections, &section_row) == WENC_DONE);
      REQUIRE(memcmp(&section, &section_row, offsetof(wenc_listed_section, id)) == 0);
    }
    for (items = 0; (status = wenc_walk_item(&walk, &item)) == WENC_DONE; items++) {
      read_items++;
      REQUIRE(check_nodes(&walk, &item) || item.section == WENC_SECTION_CUSTOM);
      if (expected != WENC_DONE) continue;
      REQUIRE(wenc_item_at(&listing, sections, items, &row) == WENC_DONE);
      REQUIRE(row.place == item.place && row.len == item.len && row.space == item.space);
      REQUIRE(row.ref == item.ref && row.of == item.of && row.item == item.item);
    }
    if (status == WENC_END) {
      REQUIRE(items == section.items);
      status = WENC_DONE;
    }
  }
  REQUIRE(status == (expected == WENC_DONE ? WENC_END : expected));
  wenc_free(&listing);
}

/* The same with a copy in which a byte is changed, and with walks with any numbers, which end. */
static void damage(const uint8_t *bytes, size_t len) {
  uint8_t *copy = (uint8_t *)__real_malloc(len);
  wenc_walk walk;
  wenc_names_walk names;
  wenc_listed_item item;
  uint32_t k;
  memcpy(copy, bytes, len);
  copy[below((uint32_t)len)] ^= (uint8_t)(1 + below(255));
  compare_walk(copy, len);
  walk.bytes = copy, walk.len = len;
  walk.next_section = below((uint32_t)len + 2), walk.next_item = below((uint32_t)len + 2);
  walk.end = below((uint32_t)len + 2), walk.items = a_number(), walk.id = below(14);
  for (k = 0; k < 20; k++) {
    REQUIRE((unsigned)wenc_walk_item(&walk, &item) <= WENC_END);
    REQUIRE((unsigned)(k % 2 ? wenc_walk_section(&walk, NULL) : wenc_walk_skip(&walk, NULL)) <=
            WENC_END);
    REQUIRE(wenc_fault_text(copy, len, below((uint32_t)len + 2), NULL, 0) < 256);
  }
  memset(&item, 0, sizeof item);
  for (k = 0; k < 20; k++) {
    item.place = below((uint32_t)len + 2), item.len = below((uint32_t)len + 2);
    item.section = (enum wenc_section)below(14);
    check_nodes(&walk, &item);
  }
  names.bytes = copy, names.len = len, names.next = below((uint32_t)len + 2);
  names.space = a_number(), names.names = below(3) ? 0 : a_number();
  for (k = 0; k < 20; k++) REQUIRE((unsigned)wenc_walk_name(&names, NULL) <= WENC_END);
  __real_free(copy);
}

static void finish(two *one) {
  const uint8_t *bytes, *expected;
  size_t len = 77, expected_len;
  enum wenc_status status = wenc_finish(&one->handle, &bytes, &len);
  name = "finish";
  until_refusal = -1;
  REQUIRE(status == WENC_DONE || (status == WENC_BAD_ARGUMENT && len == 77));
  if (status != WENC_DONE) return;
  REQUIRE(wenc_finish(&one->shadow, &expected, &expected_len) == WENC_DONE);
  REQUIRE(len == expected_len && memcmp(bytes, expected, len) == 0);
  compared++;
  compare_walk(bytes, len);
  damage(bytes, len);
}

/* Makes a call, and repeats it if it succeeds. */
static void call_two(two *one, two *other) {
  uint32_t number = below(CASES), index = 77, expected = 77;
  bool is_put = below(8) != 0;
  uint64_t before = state, after;
  enum wenc_status status = call(number, &one->handle, &other->handle, is_put ? &index : NULL);
  after = state;
  calls++;
  check_status(status);
  until_refusal = -1;
  if (status != WENC_DONE) {
    REQUIRE(index == 77);
    check_error(&one->handle, status);
    return;
  }
  accepted++;
  state = before;
  REQUIRE(call(number, &one->shadow, &other->shadow, is_put ? &expected : NULL) == WENC_DONE);
  REQUIRE(index == expected && state == after);
  REQUIRE((other->handle.at == NULL) == (other->shadow.at == NULL));
}

static void run(void) {
  two handles[HANDLES];
  uint32_t k, length = 5 + below(40);
  bool refuses = a_flag();
  memset(handles, 0, sizeof handles);
  while (length-- > 0) {
    two *one = &handles[below(HANDLES)], *other = &handles[below(HANDLES)];
    until_refusal = refuses && below(3) == 0 ? (long)below(6) : -1;
    was_refused = false;
    is_inside = true;
    if (one->handle.at == NULL && below(8) != 0) {
      begin_two(one);
    } else if (below(30) == 0) {
      wenc_free(&one->handle);
      wenc_free(&one->shadow);
    } else if (one->handle.at != NULL && below(40) == 0) {
      finish(one);
    } else {
      call_two(one, other);
    }
    is_inside = false;
    drop_kept();
  }
  is_inside = true;
  for (k = 0; k < HANDLES; k++) {
    until_refusal = -1;
    if (handles[k].handle.at != NULL) finish(&handles[k]);
    wenc_free(&handles[k].handle);
    wenc_free(&handles[k].shadow);
  }
  is_inside = false;
  REQUIRE(blocks == 0);
}

int main(int argc, char **argv) {
  uint64_t first = argc > 1 ? strtoul(argv[1], NULL, 10) : 1;
  uint64_t count = argc > 2 ? strtoul(argv[2], NULL, 10) : 1000;
  for (seed = first; seed < first + count; seed++) {
    state = seed * 0x2545f4914f6cdd1du;
    run();
  }
  printf("%lu calls, %lu accepted, %lu without memory, %lu with a wrong argument that is named\n",
         calls, accepted, refusals, blamed);
  printf("%lu components compared, %lu items read, %lu nodes visited, %lu faults said\n", compared,
         read_items, visited, said);
  return accepted > count && compared > count && refusals > 0 && read_items > count &&
                 visited > read_items && blamed > count && said > count
             ? 0
             : 1;
}
