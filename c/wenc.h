/* wenc: writing and reading WebAssembly components, for C.
 *
 * Of the C library libwenc needs malloc, realloc, free and abort, and memcpy, memmove, memset and
 * bcmp or memcmp.
 *
 * A handle owns one thing on the heap: a component that is built item by item (wenc_new) or section
 * by section (wenc_by_hand_new), the type of a component, an instance or a core module
 * (wenc_types_new), a section (wenc_section_new, wenc_names_new), or a component that was read
 * (wenc_list). A walk (wenc_walk_begin) reads a component without a handle, and allocates nothing.
 *
 *  - Each call but wenc_free, wenc_version, wenc_status_text, wenc_fault_text and
 *    wenc_item_fault_text returns a status: WENC_DONE, or why it failed. A call that fails changes
 *    neither what its handles own nor what its arguments point to, except that wenc_list writes
 *    which part it can't read. If the first argument is a handle that owns something,
 *    wenc_last_error then returns which argument was wrong. wenc_fault_text and
 *    wenc_item_fault_text return why bytes can't be read.
 *
 *  - A text is UTF-8 without a terminating 0; bytes are any bytes. Both are passed as a pointer and
 *    a number of bytes, and the call keeps no pointer to them. If the number is 0, the pointer may
 *    be NULL. WENC_TEXT makes a text from a literal.
 *
 *  - A debug name is a pointer to a text, or NULL for none. The text {NULL, 0} is also none, as a
 *    debug name and as an option of a wenc_name; an empty text has another pointer. WENC_NAMED
 *    makes a debug name from a literal.
 *
 *  - Results are written through the last pointers of a call, unless these are NULL. The pointer of
 *    an empty text or of no bytes is "", that of a text or bytes that an item doesn't have is NULL.
 *
 *  - An index is what a call wrote to `*index`: the number of items that were in its index space
 *    before. Indices aren't checked: neither whether an item has them, nor whether the component is
 *    valid.
 *
 * Requirements that no call checks:
 *
 *  - A handle is {NULL}, or one that a call filled. A copy is the same handle: once what one of
 *    them owns is freed or moved to another handle, the others are invalid. Calls that take two
 *    handles fail if both are the same.
 *
 *  - A pointer that isn't NULL points to as many values as its number says, aligned as their type
 *    is. Memory that a call writes to overlaps no other argument.
 *
 *  - A call that takes a `const wenc_handle *` only reads what the handle owns, and records why it
 *    fails: several threads may make such calls by one handle, or by copies of it, at the same
 *    time. During any other call by the handle, no other thread uses it. A handle may move to
 *    another thread. The same holds for a walk, which shares only the component's bytes with its
 *    copies.
 *
 *  - No call is made from a signal handler, nor in the child of a fork of a process with more than
 *    one thread.
 *
 * Versions: as long as the shared library's soname is libwenc.so.0, functions, structures,
 * enumerations and macros are only added. No structure gets another member, and no member of an
 * enumeration another number: an extension is a new structure and a new function that takes it. So
 * a program runs with a later library without being compiled again, but may get statuses and kinds
 * that are new to it. */
#ifndef WENC_H
#define WENC_H

/* For programs that parse this header, as Python's cffi does, WENC_PARSED leaves out everything but
 * the declarations. */
#ifndef WENC_PARSED
#include <stdbool.h>
#include <stddef.h>
#include <stdint.h>
#endif

#ifdef __cplusplus
extern "C" {
#endif

/* The version of this header, which is the package's: 10000 times its major number, 100 times the
 * minor one, plus the patch. It rises with each function that is added: those of version 0.1.0 are
 * declared `#if WENC_VERSION >= 100`. */
#define WENC_VERSION 100

/* A result that mustn't be ignored, where the compiler can warn. */
#if defined(__GNUC__) && !defined(WENC_PARSED)
#define WENC_CHECKED __attribute__((warn_unused_result))
#else
#define WENC_CHECKED
#endif

/* A text from a literal: two arguments or members. */
#define WENC_TEXT(literal) ("" literal), sizeof("" literal) - 1
/* A debug name from a literal, valid until the end of the call or the block. C89 has no such
 * expression: there, initialize a wenc_text with {WENC_TEXT(literal)}. */
#ifdef __cplusplus
#define WENC_NAMED(literal) (WencNamed(WENC_TEXT(literal)))
#elif defined(__STDC_VERSION__) && __STDC_VERSION__ >= 199901L
#define WENC_NAMED(literal) (&(const wenc_text){WENC_TEXT(literal)})
#endif

/* A handle, which owns one thing or nothing. Begin with {NULL}. */
typedef struct {
  void *at;
} wenc_handle;

/* What a call returns. */
enum wenc_status {
  WENC_DONE = 0,
  /* An allocation failed. */
  WENC_NO_MEMORY = 1,
  /* An index space, a section or a list would have more than 4294967295 members. */
  WENC_TOO_MANY = 2,
  /* A text, a module, a component, a section or a type would have more than 4294967295 bytes; or a
   * number that was read is too large for its type. */
  WENC_TOO_LARGE = 3,
  /* The component isn't finished yet (only wenc_bytes). */
  WENC_UNFINISHED = 4,
  /* A text isn't UTF-8, bytes aren't exactly one item, or debug names can't be read. */
  WENC_MALFORMED = 5,
  /* Types of components and instances nest more than 100 deep. */
  WENC_TOO_DEEP = 6,
  /* A number that is out of range, a handle that the call doesn't take or that is passed twice, an
   * unexpected NULL, or an impossible length. */
  WENC_BAD_ARGUMENT = 7,
  /* The component is finished, and takes only wenc_finish, wenc_bytes and wenc_free. */
  WENC_FINISHED = 8,
  /* The handle owns nothing, or is NULL. */
  WENC_NO_HANDLE = 9,
  /* The bytes don't begin with the header of a component. */
  WENC_NOT_A_COMPONENT = 10,
  /* A section has an unknown id, no size or one past the end, or is a custom section without a
   * name. */
  WENC_BAD_SECTION = 11,
  /* The content of a section isn't a count and that many items, or isn't one start. */
  WENC_BAD_ITEM = 12,
  /* Nothing is left: the end of a walk, of a section's items, or of the debug names. */
  WENC_END = 13
};

/* Kinds of items, for exports, aliases of exports, and declared types. */
enum wenc_kind {
  WENC_MODULE = 0,
  WENC_FUNC = 1,
  WENC_VALUE = 2,
  WENC_TYPE = 3,
  WENC_COMPONENT = 4,
  WENC_INSTANCE = 5
};

/* The type of an import, a value or an export. It goes with a number, `of`. */
enum wenc_ref {
  /* Nothing, where that is allowed. `of` isn't used. */
  WENC_REF_NONE = 0,
  /* A core module or a function: `of` is the index of its type. */
  WENC_REF_MODULE = 1,
  WENC_REF_FUNC = 2,
  /* A value of the type with this index. */
  WENC_REF_VALUE = 3,
  /* A type equal to the one with this index. */
  WENC_REF_TYPE = 4,
  /* A component or an instance: `of` is the index of its type. */
  WENC_REF_COMPONENT = 5,
  WENC_REF_INSTANCE = 6,
  /* A fresh resource type. `of` isn't used. */
  WENC_REF_RESOURCE = 7,
  /* A value of a primitive type: `of` is one of wenc_primitive. */
  WENC_REF_PRIMITIVE = 8
};

/* Primitive types of values. */
enum wenc_primitive {
  WENC_BOOL = 1,
  WENC_S8 = 2,
  WENC_U8 = 3,
  WENC_S16 = 4,
  WENC_U16 = 5,
  WENC_S32 = 6,
  WENC_U32 = 7,
  WENC_S64 = 8,
  WENC_U64 = 9,
  WENC_F32 = 10,
  WENC_F64 = 11,
  WENC_CHAR = 12,
  WENC_STRING = 13,
  WENC_ERROR_CONTEXT = 14
};

/* Kinds of items that a core instance exports, and a core module imports and exports. */
enum wenc_core_kind {
  WENC_CORE_FUNC = 0,
  WENC_CORE_TABLE = 1,
  WENC_CORE_MEMORY = 2,
  WENC_CORE_GLOBAL = 3,
  WENC_CORE_TAG = 4
};

/* Kinds of items of an enclosing component. */
enum wenc_outer_kind {
  WENC_OUTER_CORE_MODULE = 0,
  WENC_OUTER_CORE_TYPE = 1,
  WENC_OUTER_TYPE = 2,
  WENC_OUTER_COMPONENT = 3
};

/* What an alias refers to. */
enum wenc_alias {
  /* The item isn't an alias. */
  WENC_ALIAS_NONE = 0,
  /* An export of an instance. */
  WENC_ALIAS_EXPORT = 1,
  /* An export of a core instance. */
  WENC_ALIAS_CORE_EXPORT = 2,
  /* An item of an enclosing component. */
  WENC_ALIAS_OUTER = 3
};

/* Builtins of the component model, for wenc_builtin. Each comment describes `first` and `second`:
 * the index of a type, a core table or a core memory, or whether the call may return before it is
 * done (0 or 1). An argument that isn't mentioned isn't used. */
enum wenc_function {
  /* `first` is a type. */
  WENC_RESOURCE_NEW = 1,
  WENC_RESOURCE_DROP = 2,
  WENC_RESOURCE_REP = 3,
  WENC_TASK_CANCEL = 4,
  /* `first` is 0 or 1. */
  WENC_SUBTASK_CANCEL = 5,
  WENC_THREAD_YIELD = 6,
  WENC_SUBTASK_DROP = 7,
  /* `first` is a type. */
  WENC_STREAM_NEW = 8,
  /* `first` is a type, `second` 0 or 1. */
  WENC_STREAM_CANCEL_READ = 9,
  WENC_STREAM_CANCEL_WRITE = 10,
  /* `first` is a type. */
  WENC_STREAM_DROP_READABLE = 11,
  WENC_STREAM_DROP_WRITABLE = 12,
  WENC_FUTURE_NEW = 13,
  /* `first` is a type, `second` 0 or 1. */
  WENC_FUTURE_CANCEL_READ = 14,
  WENC_FUTURE_CANCEL_WRITE = 15,
  /* `first` is a type. */
  WENC_FUTURE_DROP_READABLE = 16,
  WENC_FUTURE_DROP_WRITABLE = 17,
  WENC_ERROR_CONTEXT_DROP = 18,
  WENC_WAITABLE_SET_NEW = 19,
  /* `first` is a core memory. */
  WENC_WAITABLE_SET_WAIT = 20,
  WENC_WAITABLE_SET_POLL = 21,
  WENC_WAITABLE_SET_DROP = 22,
  WENC_WAITABLE_JOIN = 23,
  WENC_BACKPRESSURE_INC = 24,
  WENC_BACKPRESSURE_DEC = 25,
  WENC_THREAD_INDEX = 26,
  /* `first` is a core type, `second` a core table. */
  WENC_THREAD_NEW_INDIRECT = 27,
  WENC_THREAD_RESUME_LATER = 28,
  WENC_THREAD_SUSPEND = 29,
  WENC_THREAD_SUSPEND_THEN_RESUME = 30,
  WENC_THREAD_YIELD_THEN_RESUME = 31,
  WENC_THREAD_SUSPEND_THEN_PROMOTE = 32,
  WENC_THREAD_YIELD_THEN_PROMOTE = 33,
  /* `first` is a type. */
  WENC_STREAM_FORWARD = 34,
  WENC_FUTURE_FORWARD = 35,
  /* `first` is a core type. */
  WENC_THREAD_SPAWN_REF = 36,
  /* `first` is a core type, `second` a core table. */
  WENC_THREAD_SPAWN_INDIRECT = 37,
  WENC_THREAD_AVAILABLE_PARALLELISM = 38
};

/* Builtins of the component model, for wenc_builtin_with. */
enum wenc_function_with {
  WENC_STREAM_READ = 1,
  WENC_STREAM_WRITE = 2,
  WENC_FUTURE_READ = 3,
  WENC_FUTURE_WRITE = 4,
  /* These two take no type. */
  WENC_ERROR_CONTEXT_NEW = 5,
  WENC_ERROR_CONTEXT_DEBUG_MESSAGE = 6
};

/* Builtins that get and set a slot of the thread's context, for wenc_context. */
enum wenc_context_function {
  WENC_CONTEXT_GET = 1,
  WENC_CONTEXT_SET = 2
};

/* Options of canonical functions. Each comment describes the number that goes with them, if any. */
enum wenc_option {
  WENC_OPTION_UTF8 = 0,
  WENC_OPTION_UTF16 = 1,
  WENC_OPTION_COMPACT_UTF16 = 2,
  /* The index of a core memory. */
  WENC_OPTION_MEMORY = 3,
  /* The index of a core function. */
  WENC_OPTION_REALLOC = 4,
  WENC_OPTION_POST_RETURN = 5,
  WENC_OPTION_ASYNC = 6,
  /* The index of a core function. */
  WENC_OPTION_CALLBACK = 7,
  /* The index of a core type. */
  WENC_OPTION_CORE_TYPE = 8,
  WENC_OPTION_GC = 9
};

/* Types of core values. */
enum wenc_core_type {
  WENC_CORE_I32 = 1,
  WENC_CORE_I64 = 2,
  WENC_CORE_F32 = 3,
  WENC_CORE_F64 = 4,
  WENC_CORE_V128 = 5,
  /* References to values of these heap types, which are nullable with WENC_CORE_NULLABLE added. */
  WENC_CORE_HEAP_FUNC = 6,
  WENC_CORE_HEAP_EXTERN = 7,
  WENC_CORE_HEAP_ANY = 8,
  WENC_CORE_HEAP_NONE = 9,
  WENC_CORE_HEAP_NO_EXTERN = 10,
  WENC_CORE_HEAP_NO_FUNC = 11,
  WENC_CORE_HEAP_EQ = 12,
  WENC_CORE_HEAP_STRUCT = 13,
  WENC_CORE_HEAP_ARRAY = 14,
  WENC_CORE_HEAP_I31 = 15,
  WENC_CORE_HEAP_EXN = 16,
  WENC_CORE_HEAP_NO_EXN = 17,
  /* References to values of the core type whose index goes with this. */
  WENC_CORE_HEAP_INDEX = 18,
  /* Packed types of fields and elements. */
  WENC_CORE_I8 = 19,
  WENC_CORE_I16 = 20,
  /* Added to a heap type: the reference is nullable. */
  WENC_CORE_NULLABLE = 0x100,
  /* Added to any of these: the field, the elements or the global variable is mutable. */
  WENC_CORE_MUTABLE = 0x200,
  WENC_CORE_FUNCREF = 0x106,
  WENC_CORE_EXTERNREF = 0x107
};

/* Core types, for wenc_subtype. */
enum wenc_composite {
  WENC_CORE_FUNCTION = 1,
  WENC_CORE_STRUCT = 2,
  WENC_CORE_ARRAY = 3
};

/* Sections, by their ids. */
enum wenc_section {
  WENC_SECTION_CUSTOM = 0,
  WENC_SECTION_CORE_MODULE = 1,
  WENC_SECTION_CORE_INSTANCE = 2,
  WENC_SECTION_CORE_TYPE = 3,
  WENC_SECTION_COMPONENT = 4,
  WENC_SECTION_INSTANCE = 5,
  WENC_SECTION_ALIAS = 6,
  WENC_SECTION_TYPE = 7,
  WENC_SECTION_CANON = 8,
  WENC_SECTION_START = 9,
  WENC_SECTION_IMPORT = 10,
  WENC_SECTION_EXPORT = 11
};

/* Index spaces. */
enum wenc_space {
  WENC_CORE_MODULES = 0,
  WENC_CORE_FUNCS = 1,
  WENC_CORE_TYPES = 2,
  WENC_CORE_MEMORIES = 3,
  WENC_CORE_TABLES = 4,
  WENC_CORE_INSTANCES = 5,
  WENC_CORE_TAGS = 6,
  WENC_CORE_GLOBALS = 7,
  WENC_FUNCS = 8,
  WENC_INSTANCES = 9,
  WENC_VALUES = 10,
  WENC_COMPONENTS = 11,
  WENC_TYPES = 12,
  /* The number of spaces; also the space of an item without an index. */
  WENC_SPACES = 13
};

/* The part of a section that can't be read. */
enum wenc_unread_part {
  /* The section, or its header. */
  WENC_UNREAD_SECTION = 0,
  /* The count of its items. */
  WENC_UNREAD_COUNT = 1,
  /* An item. */
  WENC_UNREAD_ITEM = 2,
  /* Bytes after the last item. */
  WENC_UNREAD_BEHIND = 3
};

/* Kinds of values within items, for wenc_walk_nodes. Each comment names the members of wenc_node
 * that it has. */
enum wenc_node_kind {
  /* An option without a value. */
  WENC_NODE_ABSENT = 0,
  /* An option with a value, which is the next node. */
  WENC_NODE_PRESENT = 1,
  /* A number that isn't an index: `number`. */
  WENC_NODE_NUMBER = 2,
  /* A flag: `number` is 0 or 1. */
  WENC_NODE_FLAG = 3,
  /* A text: `text`. */
  WENC_NODE_TEXT = 4,
  /* The bytes of a core module, a component or a custom section: `text`, which needn't be UTF-8. */
  WENC_NODE_BYTES = 5,
  /* An index: `number`, `space`, `scope` and `out`. */
  WENC_NODE_INDEX = 6,
  /* Values of one type. */
  WENC_NODE_LIST = 7,
  /* Values of several types. Their names are "0", "1", "2". */
  WENC_NODE_TUPLE = 8,
  /* A structure with named fields. `text` is its name. */
  WENC_NODE_RECORD = 9,
  /* A variant without fields. `text` is its name. */
  WENC_NODE_WORD = 10,
  /* A variant with one value without a name, which is the next node. `text` is its name. */
  WENC_NODE_VARIANT = 11,
  /* A variant with named fields. `text` is its name. */
  WENC_NODE_STRUCT = 12
};

/* What an index space belongs to, as seen from an item (component model, explainer, "Index
 * Spaces"). It goes with a number, `out`. */
enum wenc_scope {
  /* A component: 0 is the one that the item is in, 1 the one around that, and so on outwards. */
  WENC_SCOPE_COMPONENT = 0,
  /* The type of a component, an instance or a core module: 1 is the item itself, 2 a type that is
   * declared in it, and so on inwards. */
  WENC_SCOPE_TYPE = 1
};

/* The library takes and returns enumerations as 32 bits. Where a compiler makes them shorter
 * (-fshort-enums), this declaration fails. */
#ifndef WENC_PARSED
typedef char wenc_enums_have_32_bits[sizeof(enum wenc_status) == 4 ? 1 : -1];
#endif

/* A text, without a terminating 0. */
typedef struct {
  const char *at;
  size_t len;
} wenc_text;

/* A member of a list of names: a name and two numbers, which the calls describe. */
typedef struct {
  const char *name;
  size_t name_len;
  uint32_t kind;
  uint32_t number;
} wenc_part;

/* A member of a list without names:
 *
 *  - of value types, one of wenc_ref and its `of`;
 *
 *  - of options, one of wenc_option and its number;
 *
 *  - of core value types, one of wenc_core_type, and the index for WENC_CORE_HEAP_INDEX. */
typedef struct {
  uint32_t kind;
  uint32_t number;
} wenc_pair;

/* A name of an import or an export, with its options: the interface that it implements, the rest of
 * the version in the name, and its name elsewhere. An option is {NULL, 0} if there is none. */
typedef struct {
  wenc_text name;
  wenc_text implements;
  wenc_text version_suffix;
  wenc_text external_id;
} wenc_name;

/* The type of an import or an export of a core module. Members that its kind doesn't have aren't
 * used. */
typedef struct {
  /* The initial number of elements of a table, or of pages of a memory; and the maximum, if
   * `has_maximum` is true. */
  uint64_t minimum;
  uint64_t maximum;
  /* One of wenc_core_kind. */
  uint32_t kind;
  /* For a function or a tag, the index of its type, in the type that declares it; for a global
   * variable or the elements of a table, one of wenc_core_type. */
  uint32_t type;
  /* The index that goes with WENC_CORE_HEAP_INDEX. */
  uint32_t index;
  bool has_maximum;
  /* Whether the indices of a table, or the addresses of a memory, have 64 bits. */
  bool is_long;
  /* Whether threads share a memory. */
  bool is_shared;
} wenc_entity;

/* A core type as a subtype: the parameters and results of functions, the fields of structures, or
 * the one field of arrays. */
typedef struct {
  /* The parameters, or the fields. */
  const wenc_pair *fields;
  size_t fields_len;
  /* For functions only. */
  const wenc_pair *results;
  size_t results_len;
  /* One of wenc_composite. */
  uint32_t kind;
  /* The index of its supertype, if `has_supertype` is true. */
  uint32_t supertype;
  bool has_supertype;
  /* Whether it can't have subtypes. */
  bool is_final;
} wenc_subtype;

/* A tool with its version, and the field that lists it, such as "processed-by". */
typedef struct {
  const char *field;
  size_t field_len;
  const char *tool;
  size_t tool_len;
  const char *version;
  size_t version_len;
} wenc_producer;

/* The name of an item. */
typedef struct {
  const char *name;
  size_t name_len;
  uint32_t index;
} wenc_index_name;

/* Why a call failed. */
typedef struct {
  /* The name of the wrong argument in this header, with a terminating 0; "ref" also if its `of` is
   * wrong, and "handle" for a call that the handle doesn't take, whatever the parameter's name is.
   * NULL if no argument is wrong by itself: if an allocation failed, or a limit is exceeded by what
   * is added to earlier items. It is never freed. */
  const char *argument;
  /* The number of the member that is wrong, counting from 0, if the argument is an array. */
  size_t member;
  /* What the call returned, or WENC_DONE if none failed. */
  enum wenc_status status;
} wenc_error;

/* The part of a component that wenc_list can't read: all 0 if there is none. */
typedef struct {
  /* The byte offset of the section. */
  size_t section;
  /* The byte offset of the part of it that can't be read. */
  size_t place;
  /* One of wenc_unread_part. */
  uint32_t part;
  /* For WENC_UNREAD_ITEM, the number of items before it in the section. */
  uint32_t item;
  /* The byte offset of the first byte that can't be read, or of the end where bytes are missing;
   * that of the first byte of a number that is too large, and of a type that nests too deep. */
  size_t cause;
  /* The bytes that are expected at `cause`: `byte` if the bit `byte % 8` of `expected[byte / 8]` is
   * set. All 0 if none is, as after the last item, or if that doesn't depend on the byte alone, as
   * in a text, in a number that is too large, or where bytes are missing. */
  uint8_t expected[32];
} wenc_unread;

/* A section that was read. Each `place` is a byte offset in the component. */
typedef struct {
  /* The place of its id, and its size in bytes from there on. */
  size_t place;
  size_t len;
  /* The place of its content, after its id and its size: for a core module or a component, of the
   * module or component itself. It ends where the section ends. */
  size_t content;
  /* The number of items. A custom section, a module, a component and a start are one. */
  size_t items;
  /* One of wenc_section; after wenc_walk_skip any. */
  uint32_t id;
} wenc_listed_section;

/* An item that was read. Its texts and bytes are borrowed from the handle, or from the component of
 * the walk. Numbers that an item doesn't have are 0. */
typedef struct {
  /* Its index, or that of the first value of a start. A walk writes 0: there, the index is the sum
   * of the `indices` of all items before that have the same `space`. */
  uint64_t index;
  /* Its byte offset in the component, and its size in bytes, as wenc_item takes it. */
  size_t place;
  size_t len;
  /* The name of an import, an export, an aliased export or a custom section. */
  wenc_name name;
  /* A core module, a component, or the data of a custom section; else NULL. */
  const uint8_t *bytes;
  size_t bytes_len;
  /* The section with its kind of items. */
  enum wenc_section section;
  /* The index space; WENC_SPACES for a custom section, which has no index. */
  enum wenc_space space;
  /* The number of indices that it defines: that of its results for a start, of its types for a
   * recursion group, 0 for a custom section, otherwise 1. */
  uint32_t indices;
  /* The type of an import, or that ascribed to an export. */
  enum wenc_ref ref;
  uint32_t of;
  /* What an alias refers to. */
  enum wenc_alias alias;
  /* The kind of the exported or aliased item: one of wenc_core_kind for WENC_ALIAS_CORE_EXPORT, of
   * wenc_outer_kind for WENC_ALIAS_OUTER, otherwise of wenc_kind. */
  uint32_t kind;
  /* The index of the exported item; for an alias, of the instance or the outer item. */
  uint32_t item;
  /* For WENC_ALIAS_OUTER, the number of components further out. */
  uint32_t count;
} wenc_listed_item;

/* A walk over a component. It borrows the component's bytes, which mustn't change, and owns
 * nothing: it may be copied, and the copies are independent. Offsets are byte offsets in the
 * component. They may be read; if they are changed, the calls read something else or fail. */
typedef struct {
  /* The component. */
  const uint8_t *bytes;
  size_t len;
  /* The offset of the next section, or of the end. */
  size_t next_section;
  /* The offset of the next item of the section, or of the section's end. */
  size_t next_item;
  /* The offset at which the section ends. */
  size_t end;
  /* The number of its items that are left, and its id. */
  uint32_t items;
  uint32_t id;
} wenc_walk;

/* A walk over the debug names in a custom section, with the same rules as wenc_walk. */
typedef struct {
  /* The section's data. */
  const uint8_t *bytes;
  size_t len;
  /* The offset of the next name or subsection, or of the end, in the section's data. */
  size_t next;
  /* The index space of the next names, one of wenc_space, and their number. */
  uint32_t space;
  uint32_t names;
} wenc_names_walk;

/* A debug name that was read. */
typedef struct {
  wenc_text name;
  /* The index space of the item; WENC_SPACES for the component itself. */
  enum wenc_space space;
  /* The index of the item; 0 for the component itself. */
  uint32_t index;
} wenc_debug_name;

/* A value within an item, or the item itself. Members that its kind doesn't have are 0, NULL and
 * WENC_SPACES. */
typedef struct {
  /* A number, a flag or an index; for others the number of values directly within, which are the
   * next nodes with the next larger depth. */
  uint64_t number;
  /* The name of a field, as in the Rust type. NULL for others. */
  wenc_text name;
  /* A text or bytes, borrowed from the component; or the name of a structure or variant, as in the
   * Rust type. */
  wenc_text text;
  /* The byte offset in the component and the size in bytes of the item, of members of lists, and of
   * texts and bytes, without their length. Both are 0 for other values. */
  size_t place;
  size_t len;
  /* The number of values around it: 0 for the item. */
  uint32_t depth;
  enum wenc_node_kind kind;
  /* For an index, its index space and what that belongs to. */
  enum wenc_space space;
  enum wenc_scope scope;
  uint32_t out;
} wenc_node;

/* A function that wenc_walk_nodes calls with its own last argument and with each node, which is
 * valid during the call only. If it returns false, it isn't called again. It mustn't leave by
 * longjmp or by an exception. */
typedef bool (*wenc_node_visit)(void *context, const wenc_node *node);

#ifdef __cplusplus
}

/* The value of WENC_NAMED. */
struct WencNamed {
  wenc_text text;
  WencNamed(const char *at, size_t len) {
    text.at = at;
    text.len = len;
  }
  operator const wenc_text *() const { return &text; }
};

extern "C" {
#endif

/* Returns the version of the library, as WENC_VERSION has it. A program needs a library whose
 * version is at least that of the header that it was compiled with. */
uint32_t wenc_version(void);

/* Returns what a status means, as a short English phrase, terminated by a 0. */
const char *wenc_status_text(enum wenc_status status);

/* ---- handles
 *
 * The calls that begin something take a handle that owns nothing. If it owns something they return
 * WENC_BAD_ARGUMENT, with "handle" as the argument in wenc_last_error; if the pointer is NULL,
 * WENC_NO_HANDLE. They can also return WENC_NO_MEMORY. If they fail, a handle that owns nothing
 * still owns nothing, and has no last error: WENC_BAD_ARGUMENT is then for the one other argument
 * that can be wrong, which their comments name. */

/* Begins a component that is built item by item. */
WENC_CHECKED enum wenc_status wenc_new(wenc_handle *handle);

/* Begins a component that is built section by section. It takes wenc_section and wenc_raw_section,
 * and the calls that add a custom section, producers, a core module, a component, or a start: each
 * of these is a section, without an index (`*index` is 0). */
WENC_CHECKED enum wenc_status wenc_by_hand_new(wenc_handle *handle);

/* Begins the type of a component, an instance or a core module, without declarations.
 *
 * These calls then add declarations to it; a debug name is a bad argument. To a component's type:
 * wenc_import and wenc_import_named; to that and to an instance's: wenc_alias_ and wenc_type_, and
 * the calls that add core types; to a module's type: those that add core types,
 * wenc_core_type_import, wenc_core_type_export, and wenc_alias_outer of WENC_OUTER_CORE_TYPE. The
 * type has index spaces of its own: `*index` is the index of the declared type, core type or
 * instance there, and 0 for anything else, which isn't counted. WENC_BAD_ARGUMENT for another
 * `kind`. */
WENC_CHECKED enum wenc_status wenc_types_new(wenc_handle *handle, enum wenc_kind kind);

/* Begins a section of core instances, core types, instances, aliases, types, functions, imports or
 * exports. It takes the calls that add such items, without a debug name: `*index` is the number of
 * items that were in it before. Declared types are added to it by wenc_type. WENC_BAD_ARGUMENT for
 * another `section`. */
WENC_CHECKED enum wenc_status wenc_section_new(wenc_handle *handle, enum wenc_section section);

/* Begins a section of debug names. */
WENC_CHECKED enum wenc_status wenc_names_new(wenc_handle *handle);

/* Frees what the handle owns, and sets it to {NULL}. Does nothing if it is {NULL} or NULL. */
void wenc_free(wenc_handle *handle);

/* Finishes a component. Its `*len` bytes are at `*bytes` until the handle is freed. Doesn't
 * allocate, and may be called again. WENC_BAD_ARGUMENT, WENC_NO_HANDLE. */
WENC_CHECKED enum wenc_status wenc_finish(wenc_handle *handle, const uint8_t **bytes, size_t *len);

/* Writes the error of the last call that failed, of those that take this handle first, since it was
 * filled; of calls that several threads make at the same time by one handle, it is any that failed.
 * The status is WENC_DONE if none failed. WENC_NO_HANDLE. */
WENC_CHECKED enum wenc_status wenc_last_error(const wenc_handle *handle, wenc_error *error);

/* Copies a finished component to `bytes`. WENC_BAD_ARGUMENT if `len` isn't its number of bytes;
 * WENC_UNFINISHED, WENC_NO_HANDLE. */
WENC_CHECKED enum wenc_status wenc_bytes(const wenc_handle *handle, uint8_t *bytes, size_t len);

/* Counts the items in an index space: of a component that is built item by item, or was read; or
 * the types, core types and instances of a type. Of a component that was read, each type of a
 * recursion group is one; otherwise see wenc_core_type_group. WENC_BAD_ARGUMENT, WENC_FINISHED,
 * WENC_NO_HANDLE, and WENC_TOO_LARGE for a component that was read. */
WENC_CHECKED enum wenc_status wenc_count(const wenc_handle *handle, enum wenc_space space,
                                         uint32_t *count);

/* Counts the items of a section or of the type of a component or an instance, or the sections of
 * a component that was read. WENC_BAD_ARGUMENT, WENC_FINISHED, WENC_NO_HANDLE. */
WENC_CHECKED enum wenc_status wenc_len(const wenc_handle *handle, size_t *len);

/* ---- items
 *
 * Each of these calls adds an item, and writes its index to `*index`. They return
 * WENC_NO_MEMORY, WENC_TOO_MANY, WENC_TOO_LARGE, WENC_MALFORMED, WENC_BAD_ARGUMENT,
 * WENC_FINISHED, WENC_NO_HANDLE. */

/* Imports an item under a plain name, which is also its debug name. */
WENC_CHECKED enum wenc_status wenc_import(wenc_handle *handle, const char *name, size_t name_len,
                                          enum wenc_ref ref, uint32_t of, uint32_t *index);

/* Imports an item under a name with options. */
WENC_CHECKED enum wenc_status wenc_import_named(wenc_handle *handle, const wenc_name *name,
                                                enum wenc_ref ref, uint32_t of, uint32_t *index);

/* Exports the item of this kind with the index `item` under a plain name, with a type or
 * WENC_REF_NONE. `*index` is that of the exported item, which has the name as its debug name. */
WENC_CHECKED enum wenc_status wenc_export(wenc_handle *handle, const char *name, size_t name_len,
                                          enum wenc_kind kind, uint32_t item, enum wenc_ref ref,
                                          uint32_t of, uint32_t *index);

/* Exports an item under a name with options. */
WENC_CHECKED enum wenc_status wenc_export_named(wenc_handle *handle, const wenc_name *name,
                                                enum wenc_kind kind, uint32_t item,
                                                enum wenc_ref ref, uint32_t of, uint32_t *index);

/* Adds an alias of an instance's export of this name, which is also its debug name. */
WENC_CHECKED enum wenc_status wenc_alias_export(wenc_handle *handle, uint32_t instance,
                                                enum wenc_kind kind, const char *name,
                                                size_t name_len, uint32_t *index);

/* Adds an alias of an instance's export of this name, with another debug name or none. */
WENC_CHECKED enum wenc_status wenc_alias_instance_export(wenc_handle *handle,
                                                         const wenc_text *debug_name,
                                                         uint32_t instance, enum wenc_kind kind,
                                                         const char *name, size_t name_len,
                                                         uint32_t *index);

/* Adds an alias of a core instance's export of this name. */
WENC_CHECKED enum wenc_status wenc_alias_core_export(wenc_handle *handle,
                                                     const wenc_text *debug_name, uint32_t instance,
                                                     enum wenc_core_kind kind, const char *name,
                                                     size_t name_len, uint32_t *index);

/* Adds an alias of the item with the index `item` in the component that is `count` components
 * further out (0 is this one). */
WENC_CHECKED enum wenc_status wenc_alias_outer(wenc_handle *handle, const wenc_text *debug_name,
                                               enum wenc_outer_kind kind, uint32_t count,
                                               uint32_t item, uint32_t *index);

/* Adds the core module with these bytes, which aren't checked. */
WENC_CHECKED enum wenc_status wenc_core_module(wenc_handle *handle, const wenc_text *debug_name,
                                               const uint8_t *bytes, size_t len, uint32_t *index);

/* Adds the component with these bytes, which aren't checked. */
WENC_CHECKED enum wenc_status wenc_component_bytes(wenc_handle *handle, const wenc_text *debug_name,
                                                   const uint8_t *bytes, size_t len,
                                                   uint32_t *index);

/* Nests the component of another handle, which is freed and set to {NULL}. If this component is
 * built section by section, the other one must be too. */
WENC_CHECKED enum wenc_status wenc_component(wenc_handle *handle, const wenc_text *debug_name,
                                             wenc_handle *nested, uint32_t *index);

/* Nests the component of another handle, as wenc_component does; that handle stays valid. */
WENC_CHECKED enum wenc_status wenc_component_ref(wenc_handle *handle, const wenc_text *debug_name,
                                                 const wenc_handle *nested, uint32_t *index);

/* Adds a start: a function that is called with these values when the component is instantiated. It
 * returns `results` values; `*index` is that of the first of them. */
WENC_CHECKED enum wenc_status wenc_start(wenc_handle *handle, uint32_t function,
                                         const uint32_t *args, size_t args_len, uint32_t results,
                                         uint32_t *index);

/* Adds a builtin of the component model, whose debug name is its own. */
WENC_CHECKED enum wenc_status wenc_builtin(wenc_handle *handle, enum wenc_function function,
                                           uint32_t first, uint32_t second, uint32_t *index);

/* Adds a builtin with options: `first` is the index of a type, if it takes one. */
WENC_CHECKED enum wenc_status wenc_builtin_with(wenc_handle *handle,
                                                enum wenc_function_with function, uint32_t first,
                                                const wenc_pair *options, size_t options_len,
                                                uint32_t *index);

/* Adds task.return, with the type of the result or WENC_REF_NONE, and with options. */
WENC_CHECKED enum wenc_status wenc_task_return(wenc_handle *handle, enum wenc_ref ref, uint32_t of,
                                               const wenc_pair *options, size_t options_len,
                                               uint32_t *index);

/* Adds context.get or context.set for the slot with this number. The slot's type is one from
 * WENC_CORE_I32 to WENC_CORE_V128. */
WENC_CHECKED enum wenc_status wenc_context(wenc_handle *handle, enum wenc_context_function function,
                                           enum wenc_core_type type, uint32_t slot,
                                           uint32_t *index);

/* Lifts a core function to a function of the type with the index `type`, with options. */
WENC_CHECKED enum wenc_status wenc_lift(wenc_handle *handle, const wenc_text *debug_name,
                                        uint32_t function, uint32_t type, const wenc_pair *options,
                                        size_t options_len, uint32_t *index);

/* Lowers a function to a core function, with options. */
WENC_CHECKED enum wenc_status wenc_lower(wenc_handle *handle, const wenc_text *debug_name,
                                         uint32_t function, const wenc_pair *options,
                                         size_t options_len, uint32_t *index);

/* Instantiates a core module with core instances under names: `number` of each part is the index of
 * one, `kind` isn't used. */
WENC_CHECKED enum wenc_status wenc_core_instantiate(wenc_handle *handle,
                                                    const wenc_text *debug_name, uint32_t module,
                                                    const wenc_part *args, size_t args_len,
                                                    uint32_t *index);

/* Adds a core instance that exports core items under names: `kind` of each part is one of
 * wenc_core_kind, `number` the item's index. */
WENC_CHECKED enum wenc_status wenc_core_exports(wenc_handle *handle, const wenc_text *debug_name,
                                                const wenc_part *exports, size_t exports_len,
                                                uint32_t *index);

/* Instantiates a component with items under names: `kind` of each part is one of wenc_kind,
 * `number` the item's index. */
WENC_CHECKED enum wenc_status wenc_instantiate(wenc_handle *handle, const wenc_text *debug_name,
                                               uint32_t component, const wenc_part *args,
                                               size_t args_len, uint32_t *index);

/* Adds an instance that exports items under names, which are given as in wenc_instantiate. */
WENC_CHECKED enum wenc_status wenc_export_items(wenc_handle *handle, const wenc_text *debug_name,
                                                const wenc_part *items, size_t items_len,
                                                uint32_t *index);

/* ---- types
 *
 * These add a type of values or of functions. `kind` and `number` of each part are one of wenc_ref
 * and its `of`: WENC_REF_VALUE or WENC_REF_PRIMITIVE, and WENC_REF_NONE if a call says so. The same
 * holds for `ref` and `of`. The statuses are those of items. */

/* A resource type, represented by 32-bit numbers, with the core function that is its destructor, or
 * none. */
WENC_CHECKED enum wenc_status wenc_type_resource(wenc_handle *handle, const wenc_text *debug_name,
                                                 bool has_dtor, uint32_t dtor, uint32_t *index);

/* A function type: whether it is async, its parameters, and its result or WENC_REF_NONE. */
WENC_CHECKED enum wenc_status wenc_type_function(wenc_handle *handle, const wenc_text *debug_name,
                                                 bool is_async, const wenc_part *params,
                                                 size_t params_len, enum wenc_ref ref, uint32_t of,
                                                 uint32_t *index);

/* A primitive type. */
WENC_CHECKED enum wenc_status wenc_type_primitive(wenc_handle *handle, const wenc_text *debug_name,
                                                  enum wenc_primitive primitive, uint32_t *index);

/* A record with these fields. */
WENC_CHECKED enum wenc_status wenc_type_record(wenc_handle *handle, const wenc_text *debug_name,
                                               const wenc_part *fields, size_t fields_len,
                                               uint32_t *index);

/* A variant with these cases, each with a payload type or WENC_REF_NONE. */
WENC_CHECKED enum wenc_status wenc_type_variant(wenc_handle *handle, const wenc_text *debug_name,
                                                const wenc_part *cases, size_t cases_len,
                                                uint32_t *index);

/* A list of any length. */
WENC_CHECKED enum wenc_status wenc_type_list(wenc_handle *handle, const wenc_text *debug_name,
                                             enum wenc_ref ref, uint32_t of, uint32_t *index);

/* A list of a fixed length. */
WENC_CHECKED enum wenc_status wenc_type_fixed_length_list(wenc_handle *handle,
                                                          const wenc_text *debug_name,
                                                          enum wenc_ref ref, uint32_t of,
                                                          uint32_t length, uint32_t *index);

/* A map from keys to values. */
WENC_CHECKED enum wenc_status wenc_type_map(wenc_handle *handle, const wenc_text *debug_name,
                                            enum wenc_ref key_ref, uint32_t key_of,
                                            enum wenc_ref ref, uint32_t of, uint32_t *index);

/* A tuple of values of these types. */
WENC_CHECKED enum wenc_status wenc_type_tuple(wenc_handle *handle, const wenc_text *debug_name,
                                              const wenc_pair *elements, size_t elements_len,
                                              uint32_t *index);

/* Flags with these names: `kind` and `number` aren't used. */
WENC_CHECKED enum wenc_status wenc_type_flags(wenc_handle *handle, const wenc_text *debug_name,
                                              const wenc_part *flags, size_t flags_len,
                                              uint32_t *index);

/* An enum with these cases: `kind` and `number` aren't used. */
WENC_CHECKED enum wenc_status wenc_type_enum(wenc_handle *handle, const wenc_text *debug_name,
                                             const wenc_part *cases, size_t cases_len,
                                             uint32_t *index);

/* An option. */
WENC_CHECKED enum wenc_status wenc_type_option(wenc_handle *handle, const wenc_text *debug_name,
                                               enum wenc_ref ref, uint32_t of, uint32_t *index);

/* A result, each case with a payload type or WENC_REF_NONE. */
WENC_CHECKED enum wenc_status wenc_type_result(wenc_handle *handle, const wenc_text *debug_name,
                                               enum wenc_ref ok_ref, uint32_t ok_of,
                                               enum wenc_ref err_ref, uint32_t err_of,
                                               uint32_t *index);

/* An own handle of the resource type with this index. */
WENC_CHECKED enum wenc_status wenc_type_own(wenc_handle *handle, const wenc_text *debug_name,
                                            uint32_t resource, uint32_t *index);

/* A borrow handle of the resource type with this index. */
WENC_CHECKED enum wenc_status wenc_type_borrow(wenc_handle *handle, const wenc_text *debug_name,
                                               uint32_t resource, uint32_t *index);

/* A future with a payload type or WENC_REF_NONE. */
WENC_CHECKED enum wenc_status wenc_type_future(wenc_handle *handle, const wenc_text *debug_name,
                                               enum wenc_ref ref, uint32_t of, uint32_t *index);

/* A stream with a payload type or WENC_REF_NONE. */
WENC_CHECKED enum wenc_status wenc_type_stream(wenc_handle *handle, const wenc_text *debug_name,
                                               enum wenc_ref ref, uint32_t of, uint32_t *index);

/* The type that another handle declares; a module's is a core type. That handle stays valid, and
 * may declare more. */
WENC_CHECKED enum wenc_status wenc_type(wenc_handle *handle, const wenc_text *debug_name,
                                        const wenc_handle *types, uint32_t *index);

/* Declares an export of an item under a plain name. */
WENC_CHECKED enum wenc_status wenc_type_export(wenc_handle *types, const char *name,
                                               size_t name_len, enum wenc_ref ref, uint32_t of,
                                               uint32_t *index);

/* Declares an export of an item under a name with options. */
WENC_CHECKED enum wenc_status wenc_type_export_named(wenc_handle *types, const wenc_name *name,
                                                     enum wenc_ref ref, uint32_t of,
                                                     uint32_t *index);

/* ---- core types
 *
 * These add a core type: to a component, a section of core types, or the type of a component, an
 * instance or a core module. The statuses are those of items. */

/* A function type. It is final: it can't have subtypes. */
WENC_CHECKED enum wenc_status wenc_core_type_function(wenc_handle *handle,
                                                      const wenc_text *debug_name,
                                                      const wenc_pair *params, size_t params_len,
                                                      const wenc_pair *results, size_t results_len,
                                                      uint32_t *index);

/* A struct type with these fields. It is final. */
WENC_CHECKED enum wenc_status wenc_core_type_struct(wenc_handle *handle,
                                                    const wenc_text *debug_name,
                                                    const wenc_pair *fields, size_t fields_len,
                                                    uint32_t *index);

/* An array type: `element` and `of` are one of wenc_core_type and its index. It is final. */
WENC_CHECKED enum wenc_status wenc_core_type_array(wenc_handle *handle, const wenc_text *debug_name,
                                                   uint32_t element, uint32_t of, uint32_t *index);

/* A function, struct or array type as a subtype. */
WENC_CHECKED enum wenc_status wenc_core_type_subtype(wenc_handle *handle,
                                                     const wenc_text *debug_name,
                                                     const wenc_subtype *subtype, uint32_t *index);

/* A recursion group, whose types may refer to each other. It counts as one core type here and in
 * debug names, as in wasm-encoder; by the standard each of its types has an index: after a group of
 * n types add n - 1 to the indices of core types. */
WENC_CHECKED enum wenc_status wenc_core_type_group(wenc_handle *handle, const wenc_text *debug_name,
                                                   const wenc_subtype *subtypes,
                                                   size_t subtypes_len, uint32_t *index);

/* Declares that a core module imports an item from this module under this name. */
WENC_CHECKED enum wenc_status wenc_core_type_import(wenc_handle *types, const char *module,
                                                    size_t module_len, const char *name,
                                                    size_t name_len, const wenc_entity *entity);

/* Declares that a core module exports an item under this name. */
WENC_CHECKED enum wenc_status wenc_core_type_export(wenc_handle *types, const char *name,
                                                    size_t name_len, const wenc_entity *entity);

/* ---- sections
 *
 * Sections have no indices. The statuses are those of items. */

/* Adds a custom section with this name and data. */
WENC_CHECKED enum wenc_status wenc_custom_section(wenc_handle *handle, const char *name,
                                                  size_t name_len, const uint8_t *data,
                                                  size_t data_len);

/* Adds a custom section given as its bytes after the id, which aren't checked. */
WENC_CHECKED enum wenc_status wenc_raw_custom_section(wenc_handle *handle, const uint8_t *bytes,
                                                      size_t len);

/* Adds a section of the tools that produced the component. Adjacent tools with the same field share
 * it; a valid section has each field once. */
WENC_CHECKED enum wenc_status wenc_producers(wenc_handle *handle, const wenc_producer *producers,
                                             size_t producers_len);

/* Adds a section of the debug names so far, if there are any, to a component that is built item by
 * item. */
WENC_CHECKED enum wenc_status wenc_append_names(wenc_handle *handle);

/* Appends a section to a component that is built section by section; a section of debug names to
 * any component. The section's handle stays valid. */
WENC_CHECKED enum wenc_status wenc_section(wenc_handle *handle, const wenc_handle *section);

/* Appends a section with this id and these bytes, which aren't checked, to a component that is
 * built section by section. */
WENC_CHECKED enum wenc_status wenc_raw_section(wenc_handle *handle, uint8_t id,
                                               const uint8_t *bytes, size_t len);

/* Names the component itself, in a section of debug names. */
WENC_CHECKED enum wenc_status wenc_names_component(wenc_handle *names, const char *name,
                                                   size_t name_len);

/* Names items of an index space, in a section of debug names. The standard requires ascending
 * indices. */
WENC_CHECKED enum wenc_status wenc_names_items(wenc_handle *handle, enum wenc_space space,
                                               const wenc_index_name *names, size_t names_len);

/* Appends a subsection with this id and these bytes, which aren't checked, to a section of debug
 * names. */
WENC_CHECKED enum wenc_status wenc_names_raw(wenc_handle *names, uint8_t id, const uint8_t *bytes,
                                             size_t len);

/* ---- walking over components
 *
 * These calls read a component section by section, and item by item, in linear time. Nothing is
 * allocated. They return WENC_BAD_ARGUMENT for a walk that is NULL or wasn't begun, and WENC_END if
 * nothing is left. If a call fails, the walk stays before the part that can't be read;
 * wenc_fault_text returns why. */

/* Begins a walk over the component with these bytes, which it borrows: before its first section.
 * WENC_NOT_A_COMPONENT. */
WENC_CHECKED enum wenc_status wenc_walk_begin(wenc_walk *walk, const uint8_t *bytes, size_t len);

/* Goes to the next section, and describes it in `*section`. The remaining items of the section
 * before are skipped. WENC_BAD_SECTION; WENC_BAD_ITEM if the number of its items can't be read. */
WENC_CHECKED enum wenc_status wenc_walk_section(wenc_walk *walk, wenc_listed_section *section);

/* Goes past the next section, whatever its id and its content, which isn't read: `items` is 0.
 * WENC_BAD_SECTION if it has no size within bounds. */
WENC_CHECKED enum wenc_status wenc_walk_skip(wenc_walk *walk, wenc_listed_section *section);

/* Writes the next item of the section to `*item`. WENC_BAD_ITEM, also if bytes follow the last
 * item; WENC_TOO_DEEP; WENC_BAD_SECTION for a custom section without a name. The section's other
 * items can't be read then, but the next section can.
 *
 * A nested component is read by another walk, over the item's bytes, from which its offsets count.
 */
WENC_CHECKED enum wenc_status wenc_walk_item(wenc_walk *walk, wenc_listed_item *item);

/* Begins a walk over the debug names in an item that is a custom section named "component-name".
 * Its bytes are borrowed. WENC_BAD_ARGUMENT if it is another item. */
WENC_CHECKED enum wenc_status wenc_walk_names(wenc_names_walk *names,
                                              const wenc_listed_item *item);

/* Writes the next debug name to `*name`. Of several names for one item, the first counts.
 * WENC_MALFORMED if the next subsection can't be read. */
WENC_CHECKED enum wenc_status wenc_walk_name(wenc_names_walk *names, wenc_debug_name *name);

/* Calls a function with the nodes of an item that wenc_walk_item or wenc_item_at wrote: the item,
 * and after each value those within it, in order. They are all values of the item, without the
 * contents of core modules, components and custom sections; but the bytes of a section named
 * "producers" contain a structure "Producer" for each tool, with the fields "field", "name" and
 * "version".
 *
 * `walk` is a walk over the component; it doesn't move, and the function may use it. Types nest at
 * most 100 deep, which takes 120 kB of stack. WENC_DONE also if the function returned false.
 * WENC_BAD_ARGUMENT if an argument other than `context` is NULL, or if the item isn't within the
 * component's bytes; WENC_MALFORMED or WENC_TOO_DEEP if the item can't be read, for the reason that
 * wenc_item_fault_text returns. In these cases the function isn't called. WENC_MALFORMED also after
 * the last tool that can be read, if another follows. */
WENC_CHECKED enum wenc_status wenc_walk_nodes(const wenc_walk *walk, const wenc_listed_item *item,
                                              wenc_node_visit visit, void *context);

/* ---- reading components at once
 *
 * wenc_section_at and wenc_item_at return WENC_BAD_ARGUMENT, WENC_FINISHED, WENC_NO_HANDLE. The
 * argument in wenc_last_error is the number that is wrong. */

/* Reads a component, and keeps a copy of its bytes. If a part can't be read, writes it to `*unread`
 * and returns WENC_NOT_A_COMPONENT, WENC_BAD_SECTION, WENC_BAD_ITEM or WENC_TOO_DEEP. Otherwise
 * `*unread` is all 0, and the status WENC_DONE, WENC_NO_MEMORY, WENC_NO_HANDLE, or
 * WENC_BAD_ARGUMENT for `bytes` or a handle that owns something.
 *
 * wenc_len counts its sections, wenc_count its items. Modules and nested components aren't read. */
WENC_CHECKED enum wenc_status wenc_list(wenc_handle *listing, const uint8_t *bytes, size_t len,
                                        wenc_unread *unread);

/* Writes why the section at this byte offset of a component can't be read, as an English sentence
 * in ASCII: the first part that can't be read, what is there, and what is expected there. `section`
 * is that of wenc_unread; or of a walk, `next_section` if the section can't be read, and the
 * section's `place` if an item of it can't; 0 is the component's header.
 *
 * At most `size` bytes are written to `text`, the last of them a 0; none if it is NULL. Returns the
 * length of the whole sentence in bytes, without the 0: if that isn't less than `size`, it was cut
 * off. Returns 0 if the section can be read, if the offset isn't before the end, and if
 * `bytes` or `len` is wrong. An offset at which no section begins isn't detected. The words may
 * change with the version. */
size_t wenc_fault_text(const uint8_t *bytes, size_t len, size_t section, char *text, size_t size);

/* Writes why the bytes of an item, as wenc_item takes them, aren't exactly one item of a section
 * with this id; or why the names or tools of a custom section named "component-name" or "producers"
 * can't be read. Byte offsets in the sentence count from the item's first byte. Otherwise as
 * wenc_fault_text. Returns 0 if the item can be read, or if an argument is wrong. */
size_t wenc_item_fault_text(enum wenc_section section, const uint8_t *bytes, size_t len, char *text,
                            size_t size);

/* Writes the section with this number, counting from 0, to `*section`. WENC_BAD_ARGUMENT if there
 * is none. */
WENC_CHECKED enum wenc_status wenc_section_at(const wenc_handle *listing, size_t number,
                                              wenc_listed_section *section);

/* Writes the item with this number in a section, counting from 0, to `*item`. WENC_BAD_ARGUMENT if
 * there is none. */
WENC_CHECKED enum wenc_status wenc_item_at(const wenc_handle *listing, size_t section,
                                           size_t number, wenc_listed_item *item);

/* Adds an item that was read to a component that is built item by item, as wenc_item does. */
WENC_CHECKED enum wenc_status wenc_copy(wenc_handle *handle, const wenc_text *debug_name,
                                        const wenc_handle *listing, size_t section, size_t number,
                                        uint32_t *index);

/* Adds an item given as its bytes in a section with this id (component model, binary format). For a
 * custom section, a module, a component and a start, these are the section's content. Padded
 * numbers and the like are accepted; the shortest form is written. WENC_MALFORMED also if the bytes
 * aren't exactly one item, WENC_TOO_DEEP.
 *
 * An import, an export and a builtin have their own debug name, and a start and a custom section
 * none: `debug_name` isn't used. A custom section has no index: `*index` is 0. */
WENC_CHECKED enum wenc_status wenc_item(wenc_handle *handle, enum wenc_section section,
                                        const wenc_text *debug_name, const uint8_t *bytes,
                                        size_t len, uint32_t *index);

#ifdef __cplusplus
}
#endif

#endif
