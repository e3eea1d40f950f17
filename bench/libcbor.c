/* What cbor_bench does, by libcbor. */
#include <cbor.h>
#include <stdio.h>
#include <stdlib.h>

static unsigned char *read_input(size_t *length) {
    size_t room = 1 << 16, used = 0;
    unsigned char *bytes = malloc(room);
    while (bytes != NULL) {
        size_t got = fread(bytes + used, 1, room - used, stdin);
        if (got == 0) {
            break;
        }
        used += got;
        if (used == room) {
            room *= 2;
            bytes = realloc(bytes, room);
        }
    }
    *length = used;
    return bytes;
}

static int perform(int writes, const unsigned char *item, size_t length) {
    struct cbor_load_result result;
    cbor_item_t *value = cbor_load(item, length, &result);
    if (value == NULL || result.read != length) {
        fprintf(stderr, "libcbor: refused with code %d\n", (int)result.error.code);
        return 1;
    }
    if (writes) {
        unsigned char *written;
        size_t room;
        if (cbor_serialize_alloc(value, &written, &room) == 0) {
            return 1;
        }
        free(written);
    }
    cbor_decref(&value);
    return 0;
}

int main(void) {
    size_t length;
    unsigned char *input = read_input(&length);
    if (input == NULL) {
        return 1;
    }
    if (length < 2 || input[0] > 1) {
        return 2;
    }
    for (int turn = 0; turn < input[1]; turn++) {
        if (perform(input[0] == 1, input + 2, length - 2) != 0) {
            return 1;
        }
    }
    return 0;
}
