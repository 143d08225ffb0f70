/* Refuses requests for memory, in place of the three functions by which the kit's programs ask for
   it: the one whose number is the value of REFUSE, which it tells on the file descriptor that is
   the value of TELL. Compiled with PLAYER, the player of cases says by calls which are counted, and
   which of them, or all, are refused. Compiled with PRELOADED, it is preloaded into a program that
   was built, which asks by malloc and realloc. The kit's compiler, which builds it, has no headers.
*/
typedef __SIZE_TYPE__ size;

#ifdef PLAYER
static size count, refused_at;
static int is_armed, refuses_all;

static int is_refused(void) { return is_armed && (refuses_all || ++count == refused_at); }

/* Counts from here, and refuses the request of this number: 0 for none. */
void player_count(size refused) { count = 0, refused_at = refused; }

/* Counts requests, or does not. */
void player_arm(size armed) { is_armed = armed != 0; }

/* Refuses every request that would be counted, or no longer. */
void player_refuse_all(size all) { refuses_all = all != 0; }

/* How many were counted. */
size player_counted(void) { return count; }
#else
extern char *getenv(const char *name);
extern long strtol(const char *text, char **end, int base);
extern long write(int file, const void *bytes, size count);

static int is_refused(void) {
    static long requests;
    const char *refuse = getenv("REFUSE"), *tell = getenv("TELL");
    if (!refuse || !tell)
        return 0;
    if (__atomic_add_fetch(&requests, 1, __ATOMIC_SEQ_CST) != strtol(refuse, 0, 10))
        return 0;
    write(strtol(tell, 0, 10), "refused\n", 8);
    return 1;
}
#endif

#ifdef PRELOADED
extern void *__libc_malloc(size bytes);
extern void *__libc_realloc(void *place, size bytes);

void *malloc(size bytes) { return is_refused() ? 0 : __libc_malloc(bytes); }

void *realloc(void *place, size bytes) { return is_refused() ? 0 : __libc_realloc(place, bytes); }
#else
extern void *malloc(size bytes);
extern void *realloc(void *place, size bytes);
extern void free(void *place);

/* How many blocks of memory a program holds. */
static size held;

size blocks_held(void) { return __atomic_load_n(&held, __ATOMIC_SEQ_CST); }

struct got {
    size is_some;
    void *place;
};

static char nothing[16];

static struct got got(void *place) {
    struct got got = {place != 0, place ? place : nothing};
    return got;
}

struct got rattle_alloc(size bytes, size align) {
    void *place = is_refused() ? 0 : malloc(bytes ? bytes : align);
    __atomic_add_fetch(&held, place != 0, __ATOMIC_SEQ_CST);
    return got(place);
}

struct got rattle_realloc(void *old, size kept, size bytes, size align) {
    (void)kept;
    return got(is_refused() ? 0 : realloc(old, bytes ? bytes : align));
}

void rattle_dealloc(void *place) {
    __atomic_sub_fetch(&held, 1, __ATOMIC_SEQ_CST);
    free(place);
}
#endif
