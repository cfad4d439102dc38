/* Writes a .debug_frame section, in the 64-bit format, as one of .eh_frame, while its bytes change, as those of a mapped
   file do if the file is written to. What is written has as many bytes as were allocated for it. */
#include <stdint.h>
#include <stdlib.h>
#include <string.h>

static void *changing_malloc(size_t size);
#define malloc changing_malloc
#include "../dl/debug_frame.c"
#undef malloc

#include <stdio.h>

enum { CIE_BYTES = 32, FDE_BYTES = 40 };

static uint8_t section[CIE_BYTES + FDE_BYTES];
static size_t allocated;

static void *changing_malloc(size_t size) {
    allocated = size;
    memset(section, 0, sizeof section);
    return malloc(4 * size);
}

static void put_number(size_t offset, uint64_t number, size_t size) { memcpy(section + offset, &number, size); }

static void write_section(void) {
    static const uint8_t fields[] = {4, 0, 8, 0, 1, 0x78, 16}; /* version, no augmentation, sizes, factors, register */
    put_number(0, UINT32_MAX, 4);
    put_number(4, CIE_BYTES - 12, 8);
    put_number(12, UINT64_MAX, 8);
    memcpy(section + 20, fields, sizeof fields);
    put_number(CIE_BYTES, UINT32_MAX, 4);
    put_number(CIE_BYTES + 4, FDE_BYTES - 12, 8);
    put_number(CIE_BYTES + 20, 0x1000, 8);
    put_number(CIE_BYTES + 28, 16, 8);
}

int main(void) {
    const dwcheck_module module = {.order = DWCHECK_LITTLE, .address_size = 8, .kind = DWCHECK_DEBUG_FRAME,
                                   .frame = section, .frame_length = sizeof section};
    uint8_t *bytes = NULL;
    size_t length = 0;
    write_section();
    uint32_t status = dwcheck_dl_as_eh_frame(&module, 0x1000, 0x1fff, &bytes, &length);
    printf("status %u, %zu bytes allocated, %zu written\n", (unsigned)status, allocated, length);
    free(bytes);
    return status != DWCHECK_DONE || length != allocated;
}
