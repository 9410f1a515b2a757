/* The start of a program of ours that ends with a status; START names its run, a function of crates/starts, NAMED the word that names its
   file (1, or 2 behind a subcommand), WORDS how many words there then are (0: any), and MOST_FILE how many bytes the run reads at most. Our
   programs as the kit builds them have no status: their main gives nothing back, and they always end with 0. So the proved run is a function
   here, and this is all that is not proved. A static library reaches neither the words nor a file, so both are read here. A write to a pipe
   that nobody reads any more ends a program by default; where that signal is ignored it is a write that fails, and is told like any other. A
   static library cannot wait by a clock either: so a stream that does not block is made to block. The C library's headers are not at hand for
   every processor that this is compiled on, so the numbers are written out. */
enum { BROKEN_PIPE = 13, IGNORED = 1, INTERRUPTED = 4, GET_FLAGS = 3, SET_FLAGS = 4, NOT_BLOCKING = 04000, MOST_WORDS = 1 << 22 };
typedef void (*Handler)(int);
extern Handler signal(int, Handler);
extern int open(const char *, int, ...);
extern int fcntl(int, int, ...);
extern long read(int, void *, unsigned long);
extern int close(int);
extern int *__errno_location(void);
/* The run: the words, each with a zero byte behind it; the number of the word that names the file; the file, and the system's number for
   what failed, or 0. A slice is a pointer and a length. */
extern unsigned START(const unsigned char *words, unsigned long length, unsigned long named, const unsigned char *file,
                      unsigned long bytes, int failure);

static unsigned char words[MOST_WORDS], file[MOST_FILE];

/* The words one after another; those that find no room are left out. */
static unsigned long hand_words(int count, char **given) {
    unsigned long end = 0;
    for (int i = 0; i < count; i++) {
        unsigned long length = 0;
        while (given[i][length]) length++;
        if (MOST_WORDS - end <= length) break;
        for (unsigned long k = 0; k <= length; k++) words[end + k] = (unsigned char)given[i][k];
        end += length + 1;
    }
    return end;
}

/* Reads the file of this name to its end, or as much of it as the run reads at most; what failed. */
static int hand_file(const char *name, unsigned long *bytes) {
    int opened = open(name, 0);
    if (opened < 0) return *__errno_location();
    while (*bytes < MOST_FILE) {
        long got = read(opened, file + *bytes, MOST_FILE - *bytes);
        if (got == 0) break;
        if (got > 0) *bytes += (unsigned long)got;
        else if (*__errno_location() != INTERRUPTED) return *__errno_location();
    }
    close(opened);
    return 0;
}

/* Has a stream wait until it is ready. */
static void block(int stream) {
    int flags = fcntl(stream, GET_FLAGS);
    if (flags >= 0 && (flags & NOT_BLOCKING)) fcntl(stream, SET_FLAGS, flags & ~NOT_BLOCKING);
}

/* Whether a word may name a file: `-` is standard input. */
static int names_file(const char *word) { return word[0] != '-' || word[1]; }

int main(int count, char **given) {
    unsigned long bytes = 0;
    int failure = 0;
    signal(BROKEN_PIPE, (Handler)IGNORED);
    block(0);
    block(1);
    if (NAMED < count && (!WORDS || count == WORDS) && names_file(given[NAMED])) failure = hand_file(given[NAMED], &bytes);
    return (int)START(words, hand_words(count, given), NAMED, file, bytes, failure);
}
