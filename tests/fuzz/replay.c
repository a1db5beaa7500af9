/* Runs a driver on the files named, without the fuzzer: for valgrind, and for an input that the fuzzer kept. */
#include <stdint.h>
#include <stdio.h>
#include <stdlib.h>

int LLVMFuzzerInitialize(int *count, char ***arguments);
int LLVMFuzzerTestOneInput(const uint8_t *data, size_t size);

int main(int count, char **arguments) {
    LLVMFuzzerInitialize(&count, &arguments);
    for (int at = 1; at < count; at++) {
        FILE *file = fopen(arguments[at], "rb");
        uint8_t *bytes = malloc(1 << 20);
        if (file == NULL || bytes == NULL) {
            perror(arguments[at]);
            return EXIT_FAILURE;
        }
        LLVMFuzzerTestOneInput(bytes, fread(bytes, 1, 1 << 20, file));
        free(bytes);
        fclose(file);
    }
    printf("%d inputs replayed\n", count - 1);
    return EXIT_SUCCESS;
}
