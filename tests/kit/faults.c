// Calls of the C library that fail, loaded before it: which, the how manieth, how, and once or from then on, by the
// environment. It needs no header, so that any C compiler for Linux on x86-64 makes it.
//
//   FAULT_OF     memory (the program asks by malloc and realloc alone), read, write (of streams: all but standard error and
//                the files below FAULT_UNDER), files (calls that change files there), looks (that open, lock or read them),
//                glances (these, and calls that tell what has a name there, where its links lead, or read on in a file),
//                port (that listen to one), accept, watch (that have a descriptor reported), wait (for a report), clock
//                (that tell a time since some start), date (that tell the time since 1970) or disk (that tell what a file
//                there is: it is told to be on another disk)
//   FAULT_UNDER  the path of a folder
//   FAULT_AT     the number of the call, from 1, that fails; 0: none
//   FAULT_ON     once, or on: that call alone, or each from then on
//   FAULT_ERROR  the error's number
//   FAULT_BY     reads and writes of streams take at most so many bytes
//   FAULT_STOP   kept, dropped or torn: the process ends at the call of `files`, and of what wasn't synced all stays, nothing,
//                or in each sector what it held at some time since; halted: it stands still there until it is told to go on
//   FAULT_SEED   which sectors are torn
//   FAULT_TICK   the clock that tells a time since some start tells so many milliseconds more at each look, and stands else
//   FAULT_COUNT  a file of a page, whose first 8 bytes count the calls of the process that was started last; so many seconds as
//                the next 8 tell are added to each time that is told; where the next 8 aren't 0 the seconds since 1970 are
//                those that the 8 behind them tell, below 0 before it

typedef unsigned long size_t;

enum { EIO = 5, ENOMEM = 12, F_OFD_SETLK = 37, O_CREAT = 0100, O_RDWR = 2, PROT_READ_WRITE = 3, MAP_SHARED = 1, SEEK_CUR = 1, SEEK_END = 2 };
enum { AT_FDCWD = -100, STANDARD_ERROR = 2 };
enum { READ_CALL = 0, WRITE_CALL = 1, CLOSE_CALL = 3, LSEEK_CALL = 8, PREAD_CALL = 17, PWRITE_CALL = 18, ACCESS_CALL = 21 };
enum { SOCKET_CALL = 41, ACCEPT_CALL = 43, BIND_CALL = 49, LISTEN_CALL = 50, ACCEPT4_CALL = 288 };
enum { EPOLL_WAIT_CALL = 232, EPOLL_CTL_CALL = 233, EPOLL_CREATE1_CALL = 291 };
enum { CLOCK_GETTIME_CALL = 228, SINCE_1970 = 0, STATX_CALL = 332, STATX_DISK = 35 };
enum { SENDTO_CALL = 44, RECVFROM_CALL = 45, FCNTL_CALL = 72, FSYNC_CALL = 74, FDATASYNC_CALL = 75, FTRUNCATE_CALL = 77 };
enum { GETPID_CALL = 39, KILL_CALL = 62, HALT_SIGNAL = 19, LINK_CALL = 86, UNLINKAT_CALL = 263 };
enum { RENAME_CALL = 82, MKDIR_CALL = 83, RMDIR_CALL = 84, UNLINK_CALL = 87, FCHMOD_CALL = 91, FCHOWN_CALL = 93, OPENAT_CALL = 257 };

extern int *__errno_location(void);
extern long syscall(long, ...);
extern void *dlsym(void *, const char *);
extern char *getenv(const char *);
extern long strtol(const char *, char **, int);
extern int strcmp(const char *, const char *);
extern int strncmp(const char *, const char *, size_t);
extern size_t strlen(const char *);
extern char *strncpy(char *, const char *, size_t);
extern void *memset(void *, int, size_t);
extern void *mmap(void *, size_t, int, int, int, long);
extern void _exit(int) __attribute__((noreturn));

enum { MEMORY = 1, READ, WRITE, FILES, LOOKS, GLANCES, PORT, ACCEPT, WATCH, WAIT, CLOCK, DATE, DISK };
enum { KEPT = 1, DROPPED, TORN, HALTED };
enum { SECTOR = 512, MAX_PATHS = 64, MAX_NOTES = 1 << 16, MAX_NUMBERS = 1024, MAX_LENGTH = 512 };

// A file or folder that was opened, and a number of it that stays open, or -1 for a folder.
struct path {
    char name[MAX_LENGTH];
    int own;
};

// What a call replaced that isn't synced yet: the path's place, where, the bytes before, and the file's length before; or
// that the file or the folder was made; or that a folder has this path, and had another, whose place is `at`.
enum { CHANGED = 0, FILE_MADE, FOLDER_MADE, RENAMED };

struct note {
    int path;
    int how;
    long at;
    long count;
    long length;
    char *before;
};

static int of, on, error_number, stop, ready;
static long at, most, seed, tick, looks;
static const char *under;
static long own_page[4];
static volatile long *calls = own_page;
static struct path paths[MAX_PATHS];
static int path_count;
static struct note notes[MAX_NOTES];
static int note_count;
// By the number of an open file below the folder: one more than its path's place.
static int places[MAX_NUMBERS];

static void *(*real_malloc)(size_t);
static void *(*real_realloc)(void *, size_t);
static char *(*real_realpath)(const char *, char *);

static void find_real(void) {
    void *next = (void *)-1L;
    real_malloc = dlsym(next, "malloc");
    real_realloc = dlsym(next, "realloc");
    real_realpath = dlsym(next, "realpath");
}

static long number(const char *name, long other) {
    const char *text = getenv(name);
    return text ? strtol(text, 0, 10) : other;
}

// Which of these words, from 1, a variable is, or 0.
static int word(const char *name, const char *const *words) {
    const char *text = getenv(name);
    for (int i = 0; text && words[i]; i++)
        if (!strcmp(text, words[i])) return i + 1;
    return 0;
}

__attribute__((constructor)) static void begin(void) {
    static const char *const kinds[] = {"memory", "read", "write", "files", "looks", "glances", "port", "accept", "watch", "wait", "clock", "date", "disk", 0};
    static const char *const stops[] = {"kept", "dropped", "torn", "halted", 0};
    static const char *const times[] = {"on", 0};
    find_real();
    of = word("FAULT_OF", kinds);
    stop = word("FAULT_STOP", stops);
    on = word("FAULT_ON", times);
    under = getenv("FAULT_UNDER");
    at = number("FAULT_AT", 0);
    most = number("FAULT_BY", 0);
    seed = number("FAULT_SEED", 0);
    tick = number("FAULT_TICK", 0);
    error_number = number("FAULT_ERROR", EIO);
    const char *path = getenv("FAULT_COUNT");
    if (path) {
        int file = syscall(OPENAT_CALL, AT_FDCWD, path, O_RDWR);
        void *page = mmap(0, 4096, PROT_READ_WRITE, MAP_SHARED, file, 0);
        if (page != (void *)-1L) calls = page;
        *calls = 0;
        syscall(CLOSE_CALL, file);
    }
    ready = 1;
}

static int failed(int error) {
    *__errno_location() = error;
    return 1;
}

// Whether this call of a kind is the one, or one of those, at which something happens.
static int is_hit(int kind) {
    if (!ready || kind != of) return 0;
    long count = ++*calls;
    return at && (count == at || (on && count > at));
}

// The number of notes, from the first on, that stand in a sector of a torn file.
static int standing(int path, long sector) {
    unsigned long mixed = (sector + 1) * 0x9E3779B97F4A7C15UL ^ (path + 1) * 0xC2B2AE3D27D4EB4FUL;
    mixed = (mixed ^ (seed + 1) * 0x165667B19E3779F9UL ^ mixed >> 31) * 0xBF58476D1CE4E5B9UL;
    return (mixed >> 33) % (note_count + 1);
}

// What of a path stands behind a folder's, from its slash on, or 0.
static const char *behind(const char *name, const char *folder) {
    size_t length = strlen(folder);
    return !strncmp(name, folder, length) && name[length] == '/' ? name + length : 0;
}

// Gives what is below a folder the paths that it has below another name of that.
static void move(const char *from, const char *to) {
    for (int i = 0; i < path_count; i++) {
        const char *rest = behind(paths[i].name, from);
        if (!rest) continue;
        char moved[2 * MAX_LENGTH];
        strncpy(moved, to, MAX_LENGTH - 1);
        moved[MAX_LENGTH - 1] = 0;
        strncpy(moved + strlen(moved), rest, MAX_LENGTH);
        strncpy(paths[i].name, moved, MAX_LENGTH - 1);
    }
}

// Undoes, from the last on, what wasn't synced.
static void restore(void) {
    for (int i = note_count - 1; i >= 0; i--) {
        struct note *it = &notes[i];
        int own = paths[it->path].own;
        const char *name = paths[it->path].name;
        int is_undone = stop == DROPPED || i >= standing(it->path, -1);
        if (it->how == FILE_MADE && is_undone) syscall(UNLINK_CALL, name);
        if (it->how == FOLDER_MADE && is_undone) syscall(RMDIR_CALL, name);
        if (it->how == RENAMED && is_undone) {
            syscall(RENAME_CALL, name, paths[it->at].name);
            move(name, paths[it->at].name);
        }
        for (long k = 0, size; k < it->count; k += size) {
            long sector = (it->at + k) / SECTOR, left = (sector + 1) * SECTOR - it->at - k;
            size = it->count - k < left ? it->count - k : left;
            if (stop == DROPPED || i >= standing(it->path, sector)) syscall(PWRITE_CALL, own, it->before + k, size, it->at + k);
        }
        if (stop == DROPPED && it->how == CHANGED) syscall(FTRUNCATE_CALL, own, it->length);
    }
}

// Whether a call that changes files fails; where the process is to stop there, it does.
static int file_fails(void) {
    if (!is_hit(FILES)) return 0;
    if (!stop) return failed(error_number);
    if (stop == HALTED) {
        syscall(KILL_CALL, syscall(GETPID_CALL), HALT_SIGNAL);
        return 0;
    }
    if (stop != KEPT) restore();
    _exit(9);
}

static int fails(int kind) { return is_hit(kind) && failed(error_number); }

static int look_fails(void) { return fails(LOOKS) || fails(GLANCES); }

static int is_below(int file) { return file >= 0 && file < MAX_NUMBERS && places[file]; }

// Notes that a path is changed here, over so many bytes.
static void note(int path, int how, long place, long count) {
    if ((stop != DROPPED && stop != TORN) || note_count == MAX_NOTES) return;
    int own = paths[path].own;
    struct note *it = &notes[note_count++];
    *it = (struct note){path, how, place, count, how ? 0 : syscall(LSEEK_CALL, own, 0, SEEK_END), 0};
    if (count) {
        it->before = real_malloc(count);
        memset(it->before, 0, count);
        syscall(PREAD_CALL, own, it->before, count, place);
    }
}

static void note_of(int file, long place, long count) { note(places[file] - 1, CHANGED, place, count); }

// Whether a path is that of something in a folder, and not in one below.
static int is_in(const char *name, const char *folder) {
    const char *rest = behind(name, folder);
    while (rest && *++rest)
        if (*rest == '/') return 0;
    return rest != 0;
}

// A file is synced, or by its folder that files and folders were made and renamed in it.
static void forget(int file) {
    int path = places[file] - 1, left = 0, is_folder = paths[path].own < 0;
    for (int i = 0; i < note_count; i++) {
        struct note *it = &notes[i];
        int is_synced = is_folder ? it->how && is_in(paths[it->path].name, paths[path].name) : !it->how && it->path == path;
        if (!is_synced) notes[left++] = *it;
    }
    note_count = left;
}

// The place of a path, which is put in where it is new.
static int place_of(const char *name) {
    int i = 0;
    while (i < path_count && strcmp(paths[i].name, name)) i++;
    if (i == path_count) {
        if (path_count == MAX_PATHS) _exit(10);
        strncpy(paths[i].name, name, MAX_LENGTH - 1);
        paths[i].own = syscall(OPENAT_CALL, AT_FDCWD, name, O_RDWR);
        path_count++;
    }
    return i;
}

void *malloc(size_t size) {
    if (!real_malloc) find_real();
    return is_hit(MEMORY) && failed(ENOMEM) ? 0 : real_malloc(size);
}

void *realloc(void *old, size_t size) {
    if (!real_realloc) find_real();
    return is_hit(MEMORY) && failed(ENOMEM) ? 0 : real_realloc(old, size);
}

static size_t fewer(size_t count) { return most && count > (size_t)most ? (size_t)most : count; }

long read(int file, void *to, size_t count) {
    if (is_below(file)) return fails(GLANCES) ? -1 : syscall(READ_CALL, file, to, count);
    return fails(READ) ? -1 : syscall(READ_CALL, file, to, fewer(count));
}

long recv(int file, void *to, size_t count, int flags) {
    return fails(READ) ? -1 : syscall(RECVFROM_CALL, file, to, fewer(count), flags, 0L, 0L);
}

long write(int file, const void *from, size_t count) {
    if (file == STANDARD_ERROR) return syscall(WRITE_CALL, file, from, count);
    if (is_below(file)) {
        if (file_fails()) return -1;
        note_of(file, syscall(LSEEK_CALL, file, 0, SEEK_CUR), count);
        return syscall(WRITE_CALL, file, from, count);
    }
    return fails(WRITE) ? -1 : syscall(WRITE_CALL, file, from, fewer(count));
}

long send(int file, const void *from, size_t count, int flags) {
    return fails(WRITE) ? -1 : syscall(SENDTO_CALL, file, from, fewer(count), flags, 0L, 0L);
}

static int is_under(const char *name) { return under && *under && !strncmp(name, under, strlen(under)); }

int open(const char *name, int flags, ...) {
    __builtin_va_list rest;
    __builtin_va_start(rest, flags);
    int mode = flags & O_CREAT ? __builtin_va_arg(rest, int) : 0;
    __builtin_va_end(rest);
    int is_there = is_under(name);
    if (is_there && (flags & O_CREAT ? file_fails() : look_fails())) return -1;
    int is_new = is_there && flags & O_CREAT && syscall(ACCESS_CALL, name, 0);
    int file = syscall(OPENAT_CALL, AT_FDCWD, name, flags, mode);
    if (file >= 0 && file < MAX_NUMBERS) {
        places[file] = is_there ? place_of(name) + 1 : 0;
        if (is_new) note(places[file] - 1, FILE_MADE, 0, 0);
    }
    return file;
}

// (a folder is opened so, to look what is in it or to take something away there)
int openat(int folder, const char *name, int flags, ...) {
    __builtin_va_list rest;
    __builtin_va_start(rest, flags);
    int mode = flags & O_CREAT ? __builtin_va_arg(rest, int) : 0;
    __builtin_va_end(rest);
    int is_there = folder == AT_FDCWD && is_under(name);
    if (is_there && look_fails()) return -1;
    int file = syscall(OPENAT_CALL, folder, name, flags, mode);
    if (file >= 0 && file < MAX_NUMBERS) places[file] = is_there ? place_of(name) + 1 : 0;
    return file;
}

int close(int file) {
    if (is_below(file)) places[file] = 0;
    return syscall(CLOSE_CALL, file);
}

int fcntl(int file, int what, ...) {
    __builtin_va_list rest;
    __builtin_va_start(rest, what);
    long given = __builtin_va_arg(rest, long);
    __builtin_va_end(rest);
    return is_below(file) && what == F_OFD_SETLK && look_fails() ? -1 : syscall(FCNTL_CALL, file, what, given);
}

long pread(int file, void *to, size_t count, long place) {
    if (is_below(file) && look_fails()) return -1;
    return syscall(PREAD_CALL, file, to, count, place);
}

long pwrite(int file, const void *from, size_t count, long place) {
    if (is_below(file)) {
        if (file_fails()) return -1;
        note_of(file, place, count);
    }
    return syscall(PWRITE_CALL, file, from, count, place);
}

int ftruncate(int file, long length) {
    if (is_below(file)) {
        if (file_fails()) return -1;
        long had = syscall(LSEEK_CALL, paths[places[file] - 1].own, 0, SEEK_END);
        note_of(file, length, had > length ? had - length : 0);
    }
    return syscall(FTRUNCATE_CALL, file, length);
}

static int synced(int file, int call) {
    if (is_below(file)) {
        if (file_fails()) return -1;
        forget(file);
    }
    return syscall(call, file);
}

int fsync(int file) { return synced(file, FSYNC_CALL); }

int fdatasync(int file) { return synced(file, FDATASYNC_CALL); }

int fchmod(int file, unsigned mode) { return is_below(file) && file_fails() ? -1 : syscall(FCHMOD_CALL, file, mode); }

int fchown(int file, unsigned user, unsigned group) {
    return is_below(file) && file_fails() ? -1 : syscall(FCHOWN_CALL, file, user, group);
}

int mkdir(const char *name, unsigned mode) {
    if (is_under(name) && file_fails()) return -1;
    int result = syscall(MKDIR_CALL, name, mode);
    if (!result && is_under(name)) note(place_of(name), FOLDER_MADE, 0, 0);
    return result;
}

int rename(const char *from, const char *to) {
    if (is_under(from) && file_fails()) return -1;
    int result = syscall(RENAME_CALL, from, to);
    if (!result && is_under(from)) {
        note(place_of(to), RENAMED, place_of(from), 0);
        move(from, to);
    }
    return result;
}

int link(const char *from, const char *to) { return is_under(to) && file_fails() ? -1 : syscall(LINK_CALL, from, to); }

int unlinkat(int folder, const char *name, int flags) {
    if ((is_below(folder) || (folder == AT_FDCWD && is_under(name))) && file_fails()) return -1;
    return syscall(UNLINKAT_CALL, folder, name, flags);
}

int unlink(const char *name) { return is_under(name) && file_fails() ? -1 : syscall(UNLINK_CALL, name); }

int rmdir(const char *name) { return is_under(name) && file_fails() ? -1 : syscall(RMDIR_CALL, name); }

int socket(int family, int kind, int protocol) { return fails(PORT) ? -1 : syscall(SOCKET_CALL, family, kind, protocol); }

int bind(int file, const void *address, unsigned length) { return fails(PORT) ? -1 : syscall(BIND_CALL, file, address, length); }

int listen(int file, int most) { return fails(PORT) ? -1 : syscall(LISTEN_CALL, file, most); }

int accept(int file, void *address, unsigned *length) { return fails(ACCEPT) ? -1 : syscall(ACCEPT_CALL, file, address, length); }

int accept4(int file, void *address, unsigned *length, int flags) {
    return fails(ACCEPT) ? -1 : syscall(ACCEPT4_CALL, file, address, length, flags);
}

int epoll_create1(int flags) { return fails(WATCH) ? -1 : syscall(EPOLL_CREATE1_CALL, flags); }

int epoll_ctl(int set, int what, int file, void *event) {
    return fails(WATCH) ? -1 : syscall(EPOLL_CTL_CALL, set, what, file, event);
}

int epoll_wait(int set, void *events, int most, int wait) {
    return fails(WAIT) ? -1 : syscall(EPOLL_WAIT_CALL, set, events, most, wait);
}

int clock_gettime(int which, void *to) {
    if (fails(which == SINCE_1970 ? DATE : CLOCK)) return -1;
    if (tick && which != SINCE_1970) {
        long now = ++looks * tick, *told = to;
        told[0] = now / 1000;
        told[1] = now % 1000 * 1000000;
        return 0;
    }
    int result = syscall(CLOCK_GETTIME_CALL, which, to);
    if (!result) *(long *)to = which == SINCE_1970 && calls[2] ? calls[3] : *(long *)to + calls[1];
    return result;
}

char *realpath(const char *name, char *to) { return is_under(name) && fails(GLANCES) ? 0 : real_realpath(name, to); }

int statx(int folder, const char *name, int flags, unsigned mask, void *to) {
    if (name && is_under(name) && fails(GLANCES)) return -1;
    int result = syscall(STATX_CALL, folder, name, flags, mask, to);
    if (!result && (is_below(folder) || (name && is_under(name))) && is_hit(DISK)) ((unsigned *)to)[STATX_DISK]++;
    return result;
}
