/* ---------- The adapter, written by hand: memory, words, files and errors of the system for the program ---------- */

#ifndef SHAMIR_MEMORY_BYTES_MAX
#define SHAMIR_MEMORY_BYTES_MAX 0xFFFF0000u
#endif
/* The program looks at these two numbers, and shows the others. */
typedef char errors_have_the_numbers_that_the_module_knows[EINTR == 4 && ENOMEM == 12 ? 1 : -1];
/* No read or write moves more at a time. */
#define MOVED_BYTES_MAX 0x40000000u
/*
 * What is cleared of the C stack below the deepest frame that moved the stack pointer of the module. The frames of functions below it,
 * of the adapter and of the system's calls have less.
 */
#define FRAMES_BYTES 65536u

static int word_count;
static char **words;
static int last_error;

/* Returns where the module's address is, if the memory has so many bytes there. */
static u8 *bytes_at(const module *m, u64 at, u64 bytes)
{
    if (at > m->end || bytes > m->end - at)
        stopped();
    return PLACE(m, at);
}

/*
 * The heap: blocks one after the other from `heap_from` to `heap_to`. Each has a head of 16 bytes before it: the bytes that follow, and
 * whether they are free. A free block is joined with the free ones that follow when it is looked at.
 */
#define HEAD_BYTES 16u
/* The heap begins with so many bytes. */
#define HEAP_BYTES 0x40000u
static u64 heap_from, heap_to, heap_first_free;

static u64 bytes_of(const module *m, u64 head)
{
    return i64_load(m, head);
}

static int is_free(const module *m, u64 head)
{
    return *PLACE(m, head + 8) == 0;
}

static void set_head(module *m, u64 head, u64 bytes, int is_used)
{
    i64_store(m, head, bytes);
    i64_store(m, head + 8, (u64)is_used);
}

/* Makes the memory larger. What was there is copied, and cleared before it is freed. Returns 0 if the system has no more. */
static int grow(module *m, u64 to)
{
    u64 wanted = m->end;
    u8 *block;

    if (to > SHAMIR_MEMORY_BYTES_MAX)
        return 0;
    while (wanted < to)
        wanted += wanted;
    if (wanted > SHAMIR_MEMORY_BYTES_MAX)
        wanted = SHAMIR_MEMORY_BYTES_MAX;
    block = (u8 *)malloc((size_t)wanted);
    if (!block) {
        /* Perhaps the system has what is needed now. */
        wanted = to;
        block = (u8 *)malloc((size_t)wanted);
    }
    if (!block)
        return 0;
    memcpy(block, PLACE(m, 0), (size_t)m->end);
    clear(block + (size_t)m->end, (size_t)(wanted - m->end));
    clear(PLACE(m, 0), (size_t)m->end);
    free(PLACE(m, 0));
    m->origin = (uintptr_t)block;
    m->end = wanted;
    return 1;
}

/* Joins a free block with the free ones after it, and returns its bytes. */
static u64 joined(module *m, u64 head)
{
    u64 bytes = bytes_of(m, head);

    while (head + HEAD_BYTES + bytes < heap_to && is_free(m, head + HEAD_BYTES + bytes))
        bytes += HEAD_BYTES + bytes_of(m, head + HEAD_BYTES + bytes);
    set_head(m, head, bytes, 0);
    return bytes;
}

/* Gives a block its bytes, and leaves the rest of it as a free one. */
static void use(module *m, u64 head, u64 has, u64 bytes)
{
    if (has - bytes >= 2 * HEAD_BYTES) {
        set_head(m, head + HEAD_BYTES + bytes, has - bytes - HEAD_BYTES, 0);
        has = bytes;
    }
    set_head(m, head, has, 1);
}

/* Returns the address of a new block, or 0 if there is no memory. */
static u64 taken(module *m, u64 bytes)
{
    u64 head, has, last = 0;
    int is_first = 1;

    if (bytes > SHAMIR_MEMORY_BYTES_MAX)
        return 0;
    bytes = (bytes + HEAD_BYTES - 1) & ~(u64)(HEAD_BYTES - 1);
    for (head = heap_first_free; head < heap_to; head += HEAD_BYTES + has) {
        has = bytes_of(m, head);
        last = 0;
        if (!is_free(m, head))
            continue;
        if (is_first)
            heap_first_free = head;
        is_first = 0;
        has = joined(m, head);
        last = head;
        if (has >= bytes) {
            use(m, head, has, bytes);
            return head + HEAD_BYTES;
        }
    }
    /* The last block grows if it is free. */
    head = last ? last : heap_to;
    if (head + HEAD_BYTES + bytes > m->end && !grow(m, head + HEAD_BYTES + bytes))
        return 0;
    set_head(m, head, bytes, 1);
    heap_to = head + HEAD_BYTES + bytes;
    if (is_first)
        heap_first_free = heap_to;
    return head + HEAD_BYTES;
}

/* Answers {is there memory, address}. An address is given in any case, as no reference of the module is null. */
static void answer_address(module *m, u64 answer, u64 at)
{
    i64_store(m, answer, at != 0);
    i64_store(m, answer + 8, at ? at : HEAD_BYTES);
}

static void import_rattle_alloc(module *m, u64 answer, u64 bytes, u64 align)
{
    if (align > HEAD_BYTES)
        stopped();
    answer_address(m, answer, taken(m, bytes ? bytes : 1));
}

static void import_rattle_dealloc(module *m, u64 at)
{
    u64 head = at - HEAD_BYTES;

    bytes_at(m, head, HEAD_BYTES);
    set_head(m, head, bytes_of(m, head), 0);
    if (head < heap_first_free)
        heap_first_free = head;
}

static void import_rattle_realloc(module *m, u64 answer, u64 at, u64 old_bytes, u64 bytes, u64 align)
{
    u64 has = bytes_of(m, at - HEAD_BYTES), to;

    (void)align;
    (void)old_bytes;
    if (bytes <= has) {
        answer_address(m, answer, at);
        return;
    }
    to = taken(m, bytes);
    if (to) {
        memcpy(bytes_at(m, to, bytes), bytes_at(m, at, has), (size_t)has);
        /* What was moved stays nowhere else. */
        clear(PLACE(m, at), (size_t)has);
        import_rattle_dealloc(m, at);
    }
    answer_address(m, answer, to);
}

/* Copies a word of the command line, and returns its bytes; or -1 if there is none, -2 if it is too long. */
static u64 import_rattle_arg(module *m, u64 index, u64 at, u64 bytes)
{
    size_t length;

    if (index >= (u64)word_count || !words[index])
        return (u64)-1;
    length = strlen(words[index]);
    if (length > bytes) {
        memcpy(bytes_at(m, at, bytes), words[index], (size_t)bytes);
        return (u64)-2;
    }
    memcpy(bytes_at(m, at, length), words[index], length);
    return length;
}

static u32 import_rattle_errno(module *m)
{
    (void)m;
    return (u32)last_error;
}

static void import_rattle_set_errno(module *m, u32 number)
{
    (void)m;
    last_error = (int)number;
}

/* The program ignores the signal of a pipe that nobody reads, so that the write fails instead. It asks for nothing else. */
static u64 import___sysv_signal(module *m, u32 number, u64 handler)
{
    (void)m;
    if (number != 13 || handler != 1)
        stopped();
#ifdef SIGPIPE
    signal(SIGPIPE, SIG_IGN);
#endif
    return 0;
}

#ifdef _WIN32

/* Returns the text in UTF-8, or NULL if there is no memory. A half of a pair becomes what isn't UTF-8, as the program refuses it. */
static char *utf_8_of(const wchar_t *text)
{
    char *to = (char *)malloc(3 * wcslen(text) + 1), *end = to;
    u32 code;

    if (!to)
        return NULL;
    while ((code = *text++)) {
        if ((code & 0xFC00) == 0xD800 && (*text & 0xFC00) == 0xDC00)
            code = 0x10000 + ((code & 0x3FF) << 10 | (*text++ & 0x3FF));
        if (code < 0x80)
            *end++ = (char)code;
        else if (code < 0x800) {
            *end++ = (char)(0xC0 | code >> 6);
            *end++ = (char)(0x80 | (code & 0x3F));
        } else {
            if (code < 0x10000)
                *end++ = (char)(0xE0 | code >> 12);
            else {
                *end++ = (char)(0xF0 | code >> 18);
                *end++ = (char)(0x80 | (code >> 12 & 0x3F));
            }
            *end++ = (char)(0x80 | (code >> 6 & 0x3F));
            *end++ = (char)(0x80 | (code & 0x3F));
        }
    }
    *end = 0;
    return to;
}

/* The program looks for / alone, and shows the rest of its first word as its name. */
static char *name_of(char *path)
{
    char *name = path, *at;
    size_t length;

    for (at = path; *at; at++)
        if (*at == '\\' || *at == '/' || *at == ':')
            name = at + 1;
    length = strlen(name);
    if (length > 4 && _stricmp(name + length - 4, ".exe") == 0)
        name[length - 4] = 0;
    return name;
}

/* Takes the words as Windows has them, not as the C library changes them to the code page. */
static int take_words(int given, char **from)
{
    wchar_t **wide = CommandLineToArgvW(GetCommandLineW(), &word_count);
    int i;

    (void)given;
    (void)from;
    words = wide ? (char **)calloc((size_t)word_count + 1, sizeof *words) : NULL;
    if (!words)
        return 0;
    for (i = 0; i < word_count; i++)
        if (!(words[i] = utf_8_of(wide[i])))
            return 0;
    if (word_count < 1)
        return 0;
    LocalFree(wide);
    words[0] = name_of(words[0]);
    /* Bytes pass as they are. From a console comes text, which Ctrl-Z ends. */
    for (i = 0; i < 3; i++)
        if (i || !_isatty(i))
            _setmode(i, _O_BINARY);
    return 1;
}

/* A file that a handle of characters has may be NUL, which is no console. */
static u32 import_isatty(module *m, u32 file)
{
    DWORD mode;
    HANDLE handle = (HANDLE)_get_osfhandle((int)file);

    (void)m;
    return handle != INVALID_HANDLE_VALUE && GetConsoleMode(handle, &mode);
}

static u32 import_open(module *m, u64 path, u32 flags, u64 more)
{
    const char *name = (const char *)bytes_at(m, path, 1);
    wchar_t *wide;
    int file, length = MultiByteToWideChar(CP_UTF8, MB_ERR_INVALID_CHARS, name, -1, NULL, 0);

    (void)flags;
    (void)more;
    wide = length > 0 ? (wchar_t *)malloc((size_t)length * sizeof *wide) : NULL;
    if (!wide) {
        last_error = length > 0 ? ENOMEM : EINVAL;
        return (u32)-1;
    }
    MultiByteToWideChar(CP_UTF8, 0, name, -1, wide, length);
    file = _wopen(wide, _O_RDONLY | _O_BINARY | _O_NOINHERIT);
    last_error = errno;
    free(wide);
    return (u32)file;
}

static u32 import___xpg_strerror_r(module *m, u32 number, u64 at, u64 bytes)
{
    const char *text = strerror((int)number);
    u64 length = text ? strlen(text) : bytes;

    if (length >= bytes)
        return ERANGE;
    memcpy(bytes_at(m, at, length + 1), text, (size_t)length + 1);
    return 0;
}

#define close _close
#define read(file, to, bytes) _read(file, to, (unsigned)(bytes))
#define write(file, from, bytes) _write(file, from, (unsigned)(bytes))

#else

/* Gives the system's text for an error. The POSIX form of strerror_r returns a number. */
static u32 import___xpg_strerror_r(module *m, u32 number, u64 at, u64 bytes)
{
    return (u32)strerror_r((int)number, (char *)bytes_at(m, at, bytes), (size_t)bytes);
}

static int take_words(int given, char **from)
{
    word_count = given;
    words = from;
    return 1;
}

static u32 import_isatty(module *m, u32 file)
{
    (void)m;
    return isatty((int)file) == 1;
}

/* The program opens files to read them, and nothing else. */
static u32 import_open(module *m, u64 path, u32 flags, u64 more)
{
    int file, how = O_RDONLY;

    (void)more;
    if (flags & 3)
        stopped();
#ifdef O_CLOEXEC
    how |= O_CLOEXEC;
#endif
#ifdef O_NOCTTY
    how |= O_NOCTTY;
#endif
    file = open((const char *)bytes_at(m, path, 1), how);
    last_error = errno;
    return (u32)file;
}

#endif

static u32 import_close(module *m, u32 file)
{
    (void)m;
    return (u32)close((int)file);
}

static u64 import_read(module *m, u32 file, u64 at, u64 bytes)
{
    s64 got;

    if (bytes > MOVED_BYTES_MAX)
        bytes = MOVED_BYTES_MAX;
    got = (s64)read((int)file, bytes_at(m, at, bytes), (size_t)bytes);
    last_error = errno;
    return (u64)got;
}

static u64 import_write(module *m, u32 file, u64 at, u64 bytes)
{
    s64 put;

    if (bytes > MOVED_BYTES_MAX)
        bytes = MOVED_BYTES_MAX;
    put = (s64)write((int)file, bytes_at(m, at, bytes), (size_t)bytes);
    last_error = errno;
    return (u64)put;
}

/* Numbers of 128 bits, as clang calls for them. */
static void answer_wide(module *m, u64 answer, u64 low, u64 high)
{
    i64_store(m, answer, low);
    i64_store(m, answer + 8, high);
}

static void import___multi3(module *m, u64 answer, u64 low, u64 high, u64 by_low, u64 by_high)
{
    u64 a = low & 0xFFFFFFFFu, b = low >> 32, c = by_low & 0xFFFFFFFFu, d = by_low >> 32;
    u64 middle = b * c + (a * c >> 32), other = a * d + (middle & 0xFFFFFFFFu);

    answer_wide(m, answer, low * by_low, b * d + (middle >> 32) + (other >> 32) + low * by_high + high * by_low);
}

static void import___ashlti3(module *m, u64 answer, u64 low, u64 high, u32 by)
{
    by &= 127;
    if (by >= 64)
        answer_wide(m, answer, 0, low << (by - 64));
    else
        answer_wide(m, answer, low << by, by ? high << by | low >> (64 - by) : high);
}

static void import___lshrti3(module *m, u64 answer, u64 low, u64 high, u32 by)
{
    by &= 127;
    if (by >= 64)
        answer_wide(m, answer, high >> (by - 64), 0);
    else
        answer_wide(m, answer, by ? low >> by | high << (64 - by) : low, high >> by);
}

/* Says that there is no memory, as the program does, and returns the exit status. */
static u32 no_memory(void)
{
    static const char text[] = "shamir: out of memory\n";
    size_t done = 0;

    while (done < sizeof text - 1) {
        s64 put = (s64)write(2, text + done, sizeof text - 1 - done);

        if (put > 0)
            done += (size_t)put;
        else if (put == 0 || errno != EINTR)
            break;
    }
    return 4;
}

/* Runs the program, and returns its exit status. Its frame is below what `main` clears from. */
static NOINLINE u32 run(module *m, int given, char **from)
{
    void *block = take_words(given, from) ? malloc(HEAP_BASE + HEAP_BYTES) : NULL;
    u32 status;

    if (!block)
        return no_memory();
    m->origin = (uintptr_t)block;
    m->first = 0;
    m->end = HEAP_BASE + HEAP_BYTES;
    m->pointer = m->lowest = STACK_BYTES;
    clear(block, (size_t)m->end);
    copy_constants(m);
    heap_from = heap_to = heap_first_free = HEAP_BASE;
    status = module_main(m, 0, 0);
    clear(PLACE(m, 0), (size_t)m->end);
    free(PLACE(m, 0));
    return status;
}

/* Clears so much of the stack below this frame. */
static NOINLINE void clear_stack(size_t bytes)
{
    clear(STACK_ROOM(bytes), bytes);
}

int main(int given, char **from)
{
    module m;
    u32 status;

    m.deepest = FRAME();
    /* The system gives the stack here, before a secret is read. */
    clear_stack(FRAMES_BYTES);
    status = run(&m, given, from);
    clear_stack((FRAME() > m.deepest ? (size_t)(FRAME() - m.deepest) : 0) + FRAMES_BYTES);
    return (int)status;
}
