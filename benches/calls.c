/* Makes calls of one kind from C, which `benches/count c` counts: 100 on each of some builders.
 *
 *     ./calls ROUNDS KIND
 *
 * Without arguments it prints the kinds. */
#include <stdio.h>
#include <stdlib.h>
#include <string.h>

#include "wenc.h"

/* An array, and its length. */
#define ALL(array) array, sizeof(array) / sizeof(array)[0]

static const wenc_pair numbers[] = {{WENC_CORE_I32, 0}, {WENC_CORE_I64, 0}};
static const wenc_pair references[] = {{WENC_CORE_FUNCREF, 0}, {WENC_CORE_EXTERNREF, 0}};
static const wenc_pair options[] = {{WENC_OPTION_UTF16, 0}, {WENC_OPTION_REALLOC, 0}};
static const uint32_t values[] = {0, 1};
static const wenc_part params[] = {{WENC_TEXT("x"), WENC_REF_PRIMITIVE, WENC_S32},
                                   {WENC_TEXT("y"), WENC_REF_PRIMITIVE, WENC_S32}};

static const char *const kinds[] = {"core function", "core function with references", "start",
                                    "function type", "import", "lift", "builtin"};

static enum wenc_status call(wenc_handle *to, size_t kind) {
  switch (kind) {
    case 0: return wenc_core_type_function(to, NULL, ALL(numbers), numbers, 1, NULL);
    case 1: return wenc_core_type_function(to, NULL, ALL(references), references, 1, NULL);
    case 2: return wenc_start(to, 0, ALL(values), 1, NULL);
    case 3:
      return wenc_type_function(to, NULL, false, ALL(params), WENC_REF_PRIMITIVE, WENC_STRING,
                                NULL);
    case 4: return wenc_import(to, WENC_TEXT("name"), WENC_REF_FUNC, 0, NULL);
    case 5: return wenc_lift(to, NULL, 0, 0, ALL(options), NULL);
    default: return wenc_builtin(to, WENC_RESOURCE_DROP, 3, 0, NULL);
  }
}

int main(int argc, char **argv) {
  size_t kind = 0, known = sizeof kinds / sizeof kinds[0];
  if (argc != 3) {
    for (; kind < known; kind++) puts(kinds[kind]);
    return 0;
  }
  while (kind < known && strcmp(kinds[kind], argv[2]) != 0) kind++;
  for (long round = atol(argv[1]); round > 0; round--) {
    wenc_handle builder = {NULL};
    const uint8_t *bytes;
    size_t len;
    enum wenc_status status = wenc_new(&builder);
    for (int calls = 0; calls < 100 && status == WENC_DONE; calls++) status = call(&builder, kind);
    if (status == WENC_DONE) status = wenc_finish(&builder, &bytes, &len);
    if (status != WENC_DONE) {
      fprintf(stderr, "%s: %s\n", argv[2], wenc_status_text(status));
      return 1;
    }
    wenc_free(&builder);
  }
  return 0;
}
