/* Numbers of words by a function file that is mapped into memory: cc example.c -lcmph_c && ./a.out words.mph apple pear */
#include <cmph_c.h>

#include <fcntl.h>
#include <stdio.h>
#include <stdlib.h>
#include <string.h>
#include <sys/mman.h>
#include <sys/stat.h>

int main(int many, char **words) {
    struct stat found;
    int file = many > 1 ? open(words[1], O_RDONLY) : -1;
    if (file < 0 || fstat(file, &found)) return 2;
    const uint8_t *dump = mmap(NULL, (size_t)found.st_size, PROT_READ, MAP_SHARED, file, 0);
    if (dump == MAP_FAILED) return 2;

    cmph_c_function function = CMPH_C_FUNCTION_INIT;
    cmph_c_place place;
    uint64_t none, *index = &none;
    uint32_t code = cmph_c_open(dump, (size_t)found.st_size, index, 0, &function, &place);
    if (code == CMPH_C_NO_ROOM && (index = malloc(place.at * sizeof *index))) /* a function by BRZ */
        code = cmph_c_open(dump, (size_t)found.st_size, index, place.at, &function, &place);
    if (code != CMPH_C_OK) {
        fprintf(stderr, "%s is no function: code %u at %llu\n", words[1], code, (unsigned long long)place.at);
        return 1;
    }
    for (int i = 2; i < many; i++) {
        uint32_t number = cmph_c_answer(&function, (const uint8_t *)words[i], strlen(words[i]));
        if (number == CMPH_C_NONE)
            printf("%s has no number\n", words[i]);
        else
            printf("%s %u\n", words[i], number);
    }
    return 0;
}
