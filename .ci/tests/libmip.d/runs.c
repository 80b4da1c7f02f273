/* Runs and audits of the library, a line each on standard input: `replay` or `audit`, the status, the file of the input, and the file of the text that it has to write.
       runs         each input in a block of its exact size, each text first asked for with no room and with a byte too little
       runs --fail  each allocation of the library fails in turn, malloc's and realloc's: the call ends with MIP_MEMORY and changes nothing, and is made once more.
                    What gives room back does without where that fails, and then the answer is the whole one: of one allocation in four at most */
#include "common.h"
#include "failing.h"

typedef uint32_t call(const uint8_t *input, size_t input_len, uint8_t *out, size_t out_len, size_t *size);

static uint8_t *contents(const char *path, size_t *size)
{
    FILE *file = fopen(path, "rb");
    if (!file || fseek(file, 0, SEEK_END) != 0)
        FAIL("no such file: %s", path);
    *size = (size_t)ftell(file);
    uint8_t *block = own(*size);
    rewind(file);
    if (fread(block, 1, *size, file) != *size)
        FAIL("a file is not read: %s", path);
    fclose(file);
    return block;
}

static void same(call *asked, uint32_t status, const char *path, const uint8_t *input, size_t length, const uint8_t *text, size_t wanted)
{
    uint8_t none = 0xa5, *out = own(wanted);
    size_t size = 0;
    if (asked(input, length, &none, 0, &size) != MIP_NO_ROOM || size != wanted || none != 0xa5)
        FAIL("no room is told otherwise of %s, with size %zu", path, size);
    if (asked(input, length, out, wanted - 1, &size) != MIP_NO_ROOM || size != wanted || out[0])
        FAIL("a byte too few is told otherwise of %s", path);
    uint32_t was = asked(input, length, out, wanted, &size);
    if (was != status || size != wanted || memcmp(out, text, wanted) != 0)
        FAIL("%s is answered otherwise, with the status %u", path, was);
    free(out);
}

/* Each allocation fails in turn, until a run has none left to fail. */
static void failing(call *asked, uint32_t status, const char *path, const uint8_t *input, size_t length, const uint8_t *text, size_t wanted)
{
    uint8_t *out = own(wanted);
    long number = 0, without = 0;
    for (bool any = true; any; number++) {
        size_t size = 77;
        memset(out, 0, wanted);
        has_failed = false;
        left = number;
        uint32_t was = asked(input, length, out, wanted, &size);
        left = -1;
        any = has_failed;
        bool is_whole = was == status && size == wanted && memcmp(out, text, wanted) == 0;
        bool is_refused = was == MIP_MEMORY && size == 77 && !out[0];
        if (any ? !is_whole && !is_refused : !is_whole)
            FAIL("allocation %ld of %s: the status is %u", number, path, was);
        without += any && is_whole;
    }
    if (without > number / 4)
        FAIL("%ld of %ld allocations of %s may fail and change nothing", without, number - 1, path);
    fprintf(stderr, "%ld allocations of %s failed in turn\n", number - 1, path);
    free(out);
}

int main(int count, char **words)
{
    bool fail = count > 1 && strcmp(words[1], "--fail") == 0;
    char name[16], path[512], told[512];
    unsigned status;
    long done = 0;
    while (scanf("%15s %u %511s %511s", name, &status, path, told) == 4) {
        size_t length, wanted;
        uint8_t *input = contents(path, &length), *text = contents(told, &wanted);
        call *asked = strcmp(name, "audit") == 0 ? mip_audit : mip_replay;
        (fail ? failing : same)(asked, status, path, input, length, text, wanted);
        free(input);
        free(text);
        done++;
    }
    printf("%ld runs\n", done);
    return 0;
}
