/* Every file that is named, and everything that it becomes when it is cut at its end, goes through what the fuzzer asks of
 * `scanboot inspect`, and through the same with patterns. A short file is cut at every place, a long one at as many as take a moment. */
#include "../host/inspect.h"

#include <stdint.h>
#include <stdio.h>
#include <stdlib.h>
#include <string.h>

int LLVMFuzzerTestOneInput(const uint8_t *data, size_t size);

enum { MOST = 16777217, SHORT = 2048, CUTS = 200 };

/* Names are read to their ends then, and matched. */
static void look_with_patterns(const uint8_t *data, size_t size)
{
    static const char *patterns[] = { ".t?xt", "*a*b*", "?*" };
    static uint8_t row[] = ".t?xt\0*a*b*\0?*";
    struct patterns given = { patterns, 3, { row, sizeof row } };
    struct bytes content = { malloc(size), size }; /* exactly, so that a byte beside it is seen */
    struct text plain = { NULL, 0, 0 }, json = { NULL, 0, 0 };
    if (size > 0)
        memcpy(content.at, data, size);
    struct inspected inspected = look_at_with("a file", content, given);
    add_plain(&plain, &inspected);
    add_json(&json, &inspected);
    forget(&inspected);
    free(plain.at);
    free(json.at);
    free(content.at);
}

int main(int count, char **files)
{
    uint8_t *data = malloc(MOST);
    unsigned long inputs = 0;
    for (int i = 1; i < count && data != NULL; i++) {
        FILE *file = fopen(files[i], "rb");
        if (file == NULL) {
            perror(files[i]);
            return 1;
        }
        size_t length = fread(data, 1, MOST, file);
        size_t step = length < SHORT ? 1 : length < 65536 ? length / CUTS : length / 4;
        fclose(file);
        for (size_t cut = 0; cut <= length; cut += step, inputs++) {
            LLVMFuzzerTestOneInput(data, cut);
            look_with_patterns(data, cut);
        }
        LLVMFuzzerTestOneInput(data, length);
        inputs++;
    }
    free(data);
    printf("%lu inputs\n", inputs);
    return 0;
}
