// What `apetool trial NUMBER PAGES` has to print, by the table of its inputs in docs/FORMATS.md and not by apetool's code.
// trial NUMBER PAGES X64 A64 writes the inputs into these two files; trial NUMBER PAGES LINKED prints the summary, where LINKED
// is the file that the inputs are linked into.
#include <inttypes.h>
#include <stdio.h>
#include <stdlib.h>
#include <string.h>

typedef struct {
    uint64_t address, in_file, in_memory, flags, place;
} Load;

typedef struct {
    unsigned char *bytes;
    size_t length;
    Load loads[3];
} Input;

static void put(unsigned char *at, uint64_t value, int width) {
    for (int i = 0; i < width; i++)
        at[i] = (unsigned char)(value >> (8 * i));
}

static uint64_t up(uint64_t value, uint64_t granule) {
    return (value + granule - 1) / granule * granule;
}

static void draw(uint64_t *x, unsigned char *at, size_t count) {
    for (size_t i = 0; i < count; i++) {
        *x = *x * 6364136223846793005u + 1442695040888963407u;
        at[i] = (unsigned char)(*x >> 56);
    }
}

static void put_header(unsigned char *b, uint64_t machine, uint64_t end) {
    static const int widths[] = {2, 2, 4, 8, 8, 8, 4, 2, 2, 2, 2, 2, 2};
    const uint64_t values[] = {2, machine, 1, 0x400000, 64, end + 64, 0, 64, 56, 3, 64, 3, 0};
    int at = 16;
    memcpy(b, "\177ELF\2\1\1", 7);
    for (int i = 0; i < 13; at += widths[i], i++)
        put(b + at, values[i], widths[i]);
}

static void put_load(unsigned char *b, const Load *load, uint64_t granule) {
    put(b, 1, 4);
    put(b + 4, load->flags, 4);
    put(b + 8, load->place, 8);
    put(b + 16, load->address, 8);
    put(b + 32, load->in_file, 8);
    put(b + 40, load->in_memory, 8);
    put(b + 48, granule, 8);
}

static void put_symbols(unsigned char *b, uint64_t end) {
    put(b + end + 24, 1, 4);
    put(b + end + 30, 0xfff1, 2);
    put(b + end + 32, 0x400010, 8);
    memcpy(b + end + 49, "ape_pe_entry", 12);
    unsigned char *symbols = b + end + 128, *strings = b + end + 192;
    put(symbols + 4, 2, 4);
    put(symbols + 24, end, 8);
    put(symbols + 32, 48, 8);
    put(symbols + 40, 2, 4);
    put(symbols + 56, 24, 8);
    put(strings + 4, 3, 4);
    put(strings + 24, end + 48, 8);
    put(strings + 32, 14, 8);
}

static Input input_of(uint64_t number, uint64_t pages, uint64_t machine, uint64_t granule) {
    uint64_t part = 4096 * pages, room = up(part, granule), end = granule + room + 4096;
    uint64_t second = 0x400000 + room + granule, third = up(second + 9096, granule) + granule;
    Input input = {calloc(end + 256, 1), end + 256, {{0x400000, part, part, 5, granule}, {second, 4096, 9096, 6, granule + room}, {third, 0, 10000, 6, 0}}};
    if (!input.bytes)
        exit(2);
    put_header(input.bytes, machine, end);
    for (int i = 0; i < 3; i++)
        put_load(input.bytes + 64 + 56 * i, &input.loads[i], granule);
    draw(&number, input.bytes + granule, part);
    draw(&number, input.bytes + granule + room, 4096);
    put_symbols(input.bytes, end);
    return input;
}

static uint64_t folded(uint64_t h, uint64_t value) {
    return h * 1099511628211u + value + 1;
}

static uint64_t fold_of(const Input *input) {
    uint64_t h = 0;
    for (int i = 0; i < 3; i++) {
        const Load *load = &input->loads[i];
        for (uint64_t k = 0; k < load->in_memory; k++)
            h = folded(h, (k < load->in_file ? input->bytes[load->place + k] : 0) + 256 * load->flags);
    }
    return h;
}

static void write_to(const char *name, const Input *input) {
    FILE *file = fopen(name, "wb");
    if (!file || fwrite(input->bytes, 1, input->length, file) != input->length || fclose(file))
        exit(2);
}

static void print_fold(const char *name, const Input *input) {
    printf("reading %s fold %016" PRIx64 "\n", name, fold_of(input));
}

static void print_summary(const Input *x64, const Input *a64, const char *linked) {
    FILE *file = fopen(linked, "rb");
    uint64_t h = 0, length = 0;
    if (!file)
        exit(2);
    for (int c; (c = getc(file)) != EOF; length++)
        h = folded(h, (unsigned)c);
    printf("input 62 bytes %zu\ninput 183 bytes %zu\nlinked %" PRIu64 "\nfold %016" PRIx64 "\n", x64->length, a64->length, length, h);
    print_fold("pe", x64);
    print_fold("mach", x64);
    print_fold("elf-62", x64);
    print_fold("ape-62", x64);
    print_fold("elf-183", a64);
    print_fold("ape-183-4096", a64);
    print_fold("ape-183-16384", a64);
}

int main(int count, char **words) {
    if (count < 4)
        return 2;
    uint64_t number = strtoull(words[1], NULL, 10), pages = strtoull(words[2], NULL, 10);
    Input x64 = input_of(number, pages, 62, 4096), a64 = input_of(number, pages, 183, 16384);
    if (count == 4) {
        print_summary(&x64, &a64, words[3]);
        return 0;
    }
    write_to(words[3], &x64);
    write_to(words[4], &a64);
    return 0;
}
