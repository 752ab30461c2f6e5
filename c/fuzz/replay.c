// Plays scripts once, without a fuzzer: for valgrind, and for a script that a fuzzer left. `replay FILE..`
#include <stdint.h>
#include <stdio.h>
#include <stdlib.h>

int LLVMFuzzerInitialize(int *arguments, char ***values);
int LLVMFuzzerTestOneInput(const uint8_t *data, size_t size);

static int replay(const char *path) {
    FILE *file = fopen(path, "rb");
    if (!file) { perror(path); return 1; }
    fseek(file, 0, SEEK_END);
    size_t size = ftell(file);
    rewind(file);
    uint8_t *data = malloc(size + 1);
    int failed = !data || fread(data, 1, size, file) != size;
    fclose(file);
    if (!failed) LLVMFuzzerTestOneInput(data, size);
    free(data);
    return failed;
}

int main(int count, char **paths) {
    int failed = LLVMFuzzerInitialize(NULL, NULL);
    for (int i = 1; i < count; i++) failed |= replay(paths[i]);
    printf("replayed %d scripts, no difference\n", count - 1);
    return failed;
}
