/* final_b NETWORK FIRST SECOND: sets two plan files against one network, and prints both marks and the better file's
 * steps. */
#include <stdio.h>

#include "tamchuwe.h"

/* Of a longer file so many bytes decide. */
struct file {
    uint8_t bytes[8192];
    size_t length;
};

static int read_file(struct file *file, const char *path) {
    FILE *stream = fopen(path, "rb");
    if (!stream)
        return 0;
    file->length = fread(file->bytes, 1, sizeof file->bytes, stream);
    int failed = ferror(stream);
    return fclose(stream) == 0 && !failed;
}

/* Two bytes, low byte first. */
static unsigned number(const uint8_t *at) {
    return at[0] + 256u * at[1];
}

/* Step records of eight bytes each: length, kind, link, state wanted. */
static void print_steps(const uint8_t *part, size_t length) {
    for (const uint8_t *step = part; step < part + length; step += 8)
        printf("%s %u\n", number(step + 6) ? "CLOSE" : "OPEN", number(step + 4));
}

int main(int argc, char **argv) {
    static struct file network, plans[2];
    if (argc != 4 || !read_file(&network, argv[1]) || !read_file(&plans[0], argv[2]) ||
        !read_file(&plans[1], argv[3])) {
        fputs("final_b NETWORK FIRST SECOND: three files that can be read\n", stderr);
        return 1;
    }

    uint8_t text[TAMCHUWE_FINAL_TEXT_LENGTH];
    size_t length = tamchuwe_final_apart_text(network.bytes, network.length, plans[0].bytes, plans[0].length,
                                              plans[1].bytes, plans[1].length, text, sizeof text);
    fwrite(text, 1, length, stdout);

    uint64_t values[TAMCHUWE_FINAL_VALUES];
    size_t count;
    if (tamchuwe_final_apart(network.bytes, network.length, plans[0].bytes, plans[0].length, plans[1].bytes,
                             plans[1].length, values, TAMCHUWE_FINAL_VALUES, &count) != TAMCHUWE_FINAL)
        return 0;
    if (count < TAMCHUWE_FINAL_VALUES) /* the library is older than the header */
        return 1;
    uint64_t better = values[6], offset = values[7];
    if (better == TAMCHUWE_NEITHER) {
        puts("neither is valid");
        return 0;
    }
    printf("the %s is better:\n", better == TAMCHUWE_FIRST ? "first" : "second");
    /* what is handed back is a part of the lent bytes */
    print_steps(plans[better].bytes + offset, values[8]);
    return 0;
}
