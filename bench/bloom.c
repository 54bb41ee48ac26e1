// A Bloom filter by libbloom over the lines of a file, with one strange key in 2^WIDTH let through, and the lines of another that it lets
// through.
//   bloom KEYS WIDTH TESTED REPORT
// It writes these lines to standard output. The file REPORT then says how many seconds of processor time the building and the testing
// took, with the reading of the files, how many bits the filter has, and how many lines it let through. libbloom keeps no filter in a
// file, so both are measured in one run.
#include "lines.h"
#include <bloom.h>
#include <math.h>
#include <time.h>

static double seconds(void) {
    struct timespec now;
    clock_gettime(CLOCK_PROCESS_CPUTIME_ID, &now);
    return now.tv_sec + now.tv_nsec / 1e9;
}

static long count_lines(const char *path) {
    FILE *file = opened(path, "rb");
    static char piece[PIECE];
    long count = 0;
    size_t came;
    while ((came = fread(piece, 1, PIECE, file)))
        for (size_t i = 0; i < came; i++) count += piece[i] == '\n';
    fclose(file);
    return count;
}

static void add_lines(struct bloom *filter, const char *path) {
    FILE *file = opened(path, "rb");
    struct line line = {0};
    for (ssize_t length; (length = next_line(file, &line)) >= 0;) bloom_add(filter, line.bytes, (int)length);
    free(line.bytes);
    fclose(file);
}

static long test_lines(struct bloom *filter, const char *path) {
    FILE *file = opened(path, "rb");
    struct line line = {0};
    long count = 0;
    for (ssize_t length; (length = next_line(file, &line)) >= 0;)
        if (bloom_check(filter, line.bytes, (int)length)) {
            fwrite_unlocked(line.bytes, 1, length, stdout);
            putchar_unlocked('\n');
            count++;
        }
    free(line.bytes);
    fclose(file);
    return count;
}

int main(int argc, char **argv) {
    if (argc != 5) {
        fputs("usage: bloom KEYS WIDTH TESTED REPORT\n", stderr);
        return 2;
    }
    setvbuf(stdout, NULL, _IOFBF, PIECE);
    const double start = seconds();
    struct bloom filter;
    if (bloom_init(&filter, (int)count_lines(argv[1]), pow(2, -atof(argv[2])))) return 1;
    add_lines(&filter, argv[1]);
    const double built = seconds();
    const long count = test_lines(&filter, argv[3]);
    fflush(stdout);
    const double tested = seconds();
    FILE *report = opened(argv[4], "wb");
    fprintf(report, "%.6f %.6f %d %ld\n", built - start, tested - built, filter.bits, count);
    fclose(report);
    return 0;
}
