/* What the program pdbmerge calls of the system, for Windows on x86-64.
 *
 * The proved module calls functions of glibc and of the kit, whose contracts the proof assumes. Here they are over
 * Windows' own calls. Nothing proves them: README.md has the contract of each beside what is done here. The program
 * has one thread. Names and arguments are UTF-8, and no byte of a file is changed. */
#include <cpuid.h>
#include <stdarg.h>
#include <stddef.h>
#include <stdint.h>
#include <string.h>
#include <windows.h>
#include <shellapi.h>

/* ---- Errors */

/* Linux's numbers of the errors that are told here. */
enum {
    LINUX_ENOENT = 2,
    LINUX_EIO = 5,
    LINUX_EBADF = 9,
    LINUX_EACCES = 13,
    LINUX_EBUSY = 16,
    LINUX_EEXIST = 17,
    LINUX_ENOTDIR = 20,
    LINUX_EISDIR = 21,
    LINUX_ENOSPC = 28,
    LINUX_EROFS = 30,
    LINUX_EPIPE = 32,
    LINUX_ENAMETOOLONG = 36,
    LINUX_ENOSYS = 38
};

/* What Windows has no error for: a folder where a file is wanted. Bit 29 is never set in its own. */
enum { IS_FOLDER = 1 << 29 };

static int last_error;

int rattle_errno(void) {
    return last_error;
}

void rattle_set_errno(int error) {
    last_error = error;
}

/* Linux's number for an error of Windows. No error is EINTR, at which the program would try again. */
static int linux_error(DWORD error) {
    switch (error) {
        case ERROR_FILE_NOT_FOUND:
        case ERROR_PATH_NOT_FOUND:
        case ERROR_INVALID_NAME:
        case ERROR_INVALID_DRIVE:
        case ERROR_BAD_NETPATH:
        case ERROR_BAD_NET_NAME: return LINUX_ENOENT;
        case ERROR_ACCESS_DENIED: return LINUX_EACCES;
        case ERROR_SHARING_VIOLATION:
        case ERROR_LOCK_VIOLATION: return LINUX_EBUSY;
        case ERROR_FILE_EXISTS:
        case ERROR_ALREADY_EXISTS: return LINUX_EEXIST;
        case ERROR_DIRECTORY: return LINUX_ENOTDIR;
        case IS_FOLDER: return LINUX_EISDIR;
        case ERROR_DISK_FULL:
        case ERROR_HANDLE_DISK_FULL: return LINUX_ENOSPC;
        case ERROR_WRITE_PROTECT: return LINUX_EROFS;
        case ERROR_BROKEN_PIPE:
        case ERROR_NO_DATA:
        case ERROR_PIPE_NOT_CONNECTED: return LINUX_EPIPE;
        case ERROR_FILENAME_EXCED_RANGE: return LINUX_ENAMETOOLONG;
        default: return LINUX_EIO;
    }
}

static int fail_with(int error) {
    last_error = error;
    return -1;
}

/* Fails with what Windows said last. */
static int fail(void) {
    return fail_with(linux_error(GetLastError()));
}

/* The words of glibc for an error. */
static const char *words_of(int error) {
    switch (error) {
        case LINUX_ENOENT: return "No such file or directory";
        case LINUX_EIO: return "Input/output error";
        case LINUX_EBADF: return "Bad file descriptor";
        case LINUX_EACCES: return "Permission denied";
        case LINUX_EBUSY: return "Device or resource busy";
        case LINUX_EEXIST: return "File exists";
        case LINUX_ENOTDIR: return "Not a directory";
        case LINUX_EISDIR: return "Is a directory";
        case LINUX_ENOSPC: return "No space left on device";
        case LINUX_EROFS: return "Read-only file system";
        case LINUX_EPIPE: return "Broken pipe";
        case LINUX_ENAMETOOLONG: return "File name too long";
        case LINUX_ENOSYS: return "Function not implemented";
        default: return "Unknown error";
    }
}

/* Where the words are longer than the room, it gets the first of them, and no 0. */
int __xpg_strerror_r(int error, char *to, size_t room) {
    strncpy(to, words_of(error), room);
    return 0;
}

/* ---- Arguments */

static wchar_t **words;
static size_t word_count;

/* Puts a character into `to` as UTF-8. Half of a pair that stands alone becomes three bytes that are no UTF-8. */
static size_t encode(uint32_t code, uint8_t to[4]) {
    if (code < 0x80) {
        to[0] = (uint8_t)code;
        return 1;
    }
    size_t length = code < 0x800 ? 2 : code < 0x10000 ? 3 : 4;
    for (size_t at = length - 1; at > 0; at--, code >>= 6)
        to[at] = (uint8_t)(0x80 | (code & 0x3f));
    to[0] = (uint8_t)(0xf00 >> length | code);
    return length;
}

int64_t rattle_arg(size_t position, uint8_t *to, size_t room) {
    if (position >= word_count)
        return -1;
    size_t length = 0;
    for (const wchar_t *from = words[position]; *from != 0; from++) {
        uint32_t code = *from;
        if (IS_SURROGATE_PAIR(from[0], from[1]))
            code = 0x10000 + ((code & 0x3ff) << 10 | (*++from & 0x3ff));
        uint8_t bytes[4];
        size_t count = encode(code, bytes);
        for (size_t at = 0; at < count; at++) {
            if (length == room)
                return -2;
            to[length++] = bytes[at];
        }
    }
    return (int64_t)length;
}

/* ---- The numbers of open files */

/* The program has few files open at a time. */
enum { MOST_FILES = 16 };

/* The handle of each number. NULL stands at a number that is free. */
static HANDLE files[MOST_FILES];

static HANDLE handle_of(int number) {
    return 0 <= number && number < MOST_FILES ? files[number] : NULL;
}

/* Gives a handle the lowest number that is free, as Linux does. */
static int numbered(HANDLE handle) {
    if (handle == INVALID_HANDLE_VALUE)
        return fail();
    for (int number = 0; number < MOST_FILES; number++)
        if (files[number] == NULL) {
            files[number] = handle;
            return number;
        }
    CloseHandle(handle);
    return fail_with(LINUX_EIO);
}

int close(int number) {
    HANDLE handle = handle_of(number);
    if (handle == NULL)
        return fail_with(LINUX_EIO);
    files[number] = NULL;
    return CloseHandle(handle) ? 0 : fail();
}

/* ---- Names */

/* The kit's PATH_MAX, the longest name that is made whole, and what may stand before such a name. */
enum { MOST_GIVEN = 4096, MOST_WHOLE = 32768, MARK = 6 };

/* The standard stream that a name means on Linux, or -1. */
static int standard_of(const char *name) {
    static const char *const names[] = {"/dev/stdin",      "/dev/stdout",     "/dev/stderr",
                                        "/dev/fd/0",       "/dev/fd/1",       "/dev/fd/2",
                                        "/proc/self/fd/0", "/proc/self/fd/1", "/proc/self/fd/2"};
    for (int at = 0; at < 9; at++)
        if (strcmp(name, names[at]) == 0)
            return at % 3;
    return -1;
}

/* Whether a name begins so that Windows takes it as it is. */
static int is_plain(const wchar_t *name) {
    return wcsncmp(name, L"\\\\?\\", 4) == 0 || wcsncmp(name, L"\\\\.\\", 4) == 0;
}

/* A name as Windows takes it, or NULL. A carriage return at its end is left out: no file of Windows has one in its
 * name, and a list whose lines end with CR LF has one behind each name. A name of 260 characters or more has to be
 * whole, with a mark before it. */
static const wchar_t *widened(const char *name) {
    static wchar_t given[MOST_GIVEN], room[MARK + MOST_WHOLE];
    int length = MultiByteToWideChar(CP_UTF8, MB_ERR_INVALID_CHARS, name, -1, given, MOST_GIVEN);
    if (length == 0)
        return NULL;
    if (length > 1 && given[length - 2] == L'\r')
        given[length - 2] = 0;
    wchar_t *whole = room + MARK;
    DWORD count = GetFullPathNameW(given, MOST_WHOLE, whole, NULL);
    if (count == 0 || count >= MOST_WHOLE) {
        SetLastError(count == 0 ? ERROR_INVALID_NAME : ERROR_FILENAME_EXCED_RANGE);
        return NULL;
    }
    if (count < MAX_PATH || is_plain(whole))
        return given;
    if (wcsncmp(whole, L"\\\\", 2) != 0)
        return memcpy(whole - 4, L"\\\\?\\", 4 * sizeof *whole);
    /* Of \\server\share the first of its two backslashes makes room for the mark. */
    return memcpy(whole - MARK, L"\\\\?\\UNC", 7 * sizeof *whole);
}

/* ---- What a file is */

/* Linux's struct statx. */
typedef struct {
    uint32_t mask, block_size;
    uint64_t attributes;
    uint32_t links, user, group;
    uint16_t mode, spare;
    uint64_t number, size, blocks, attributes_mask;
    uint64_t times[8];
    uint32_t own_major, own_minor, device_major, device_minor;
    uint64_t more[14];
} statx_answer;
_Static_assert(sizeof(statx_answer) == 256 && offsetof(statx_answer, device_major) == 136, "as on Linux");

/* Linux's kinds of files. */
enum { A_PIPE = 0010000, A_DEVICE = 0020000, A_FOLDER = 0040000, A_FILE = 0100000, A_LINK = 0120000 };

/* Whether two handles are of one open file. Windows can tell since version 10. */
static int is_same(HANDLE one, HANDLE other) {
    BOOL (WINAPI *compare)(HANDLE, HANDLE);
    FARPROC found = GetProcAddress(GetModuleHandleW(L"kernelbase.dll"), "CompareObjectHandles");
    memcpy(&compare, &found, sizeof compare);
    return one == other || (compare != NULL && compare(one, other));
}

/* A number for what has none on a disk: that of the first standard stream that it is, or one that nothing else has. */
static uint64_t own_number(HANDLE handle) {
    static uint64_t given = 2;
    for (uint64_t number = 0; number <= 2; number++)
        if (files[number] != NULL && is_same(handle, files[number]))
            return number;
    return ++given;
}

static int describe(HANDLE handle, statx_answer *to) {
    BY_HANDLE_FILE_INFORMATION info;
    LARGE_INTEGER size = {.QuadPart = 0};
    DWORD type = GetFileType(handle);
    memset(to, 0, sizeof *to);
    if (type == FILE_TYPE_DISK && GetFileInformationByHandle(handle, &info)) {
        to->mode = info.dwFileAttributes & FILE_ATTRIBUTE_DIRECTORY ? A_FOLDER : A_FILE;
        to->size = (uint64_t)info.nFileSizeHigh << 32 | info.nFileSizeLow;
        to->number = (uint64_t)info.nFileIndexHigh << 32 | info.nFileIndexLow;
        to->device_minor = info.dwVolumeSerialNumber;
        return 0;
    }
    if (type == FILE_TYPE_UNKNOWN || (type == FILE_TYPE_DISK && !GetFileSizeEx(handle, &size)))
        return fail();
    to->mode = type == FILE_TYPE_DISK ? A_FILE : type == FILE_TYPE_PIPE ? A_PIPE : A_DEVICE;
    to->size = (uint64_t)size.QuadPart;
    to->number = own_number(handle);
    /* No disk has this number. */
    to->device_major = UINT32_MAX;
    return 0;
}

/* ---- Files */

/* The sets of flags with which the program opens a file. */
enum { TO_READ = 0x80100, TO_OVERWRITE = 0x80341, TO_APPEND = 0x80501, TO_CREATE = 0x801c2 };

static HANDLE failed_with(DWORD error) {
    SetLastError(error);
    return INVALID_HANDLE_VALUE;
}

static int is_folder(const wchar_t *name) {
    DWORD is = GetFileAttributesW(name);
    return is != INVALID_FILE_ATTRIBUTES && (is & FILE_ATTRIBUTE_DIRECTORY) != 0;
}

/* How a file is opened. Without the first flag no folder can be read. With the second one a link is not followed. */
enum { AS_FOLDER_TOO = FILE_FLAG_BACKUP_SEMANTICS, AS_LINK = FILE_FLAG_OPEN_REPARSE_POINT };

/* Opens a file, and locks nobody out. A new one has these rights, or those of its folder. Of a folder that is to be
 * overwritten Windows says that access is denied. */
static HANDLE opened_with(const char *name, DWORD access, DWORD creation, DWORD flags, SECURITY_ATTRIBUTES *rights) {
    /* No file of this disk is taken for what Linux tells there of open files. */
    if (strncmp(name, "/proc/self/fdinfo/", 18) == 0)
        return failed_with(ERROR_FILE_NOT_FOUND);
    const wchar_t *wide = widened(strcmp(name, "/dev/null") == 0 ? "NUL" : name);
    DWORD shared = FILE_SHARE_READ | FILE_SHARE_WRITE | FILE_SHARE_DELETE;
    if (wide == NULL)
        return INVALID_HANDLE_VALUE;
    HANDLE handle = CreateFileW(wide, access, shared, rights, creation, flags, NULL);
    DWORD error = GetLastError();
    if (handle == INVALID_HANDLE_VALUE && creation == CREATE_ALWAYS && is_folder(wide))
        error = IS_FOLDER;
    return handle == INVALID_HANDLE_VALUE ? failed_with(error) : handle;
}

static HANDLE opened(const char *name, DWORD access, DWORD creation, DWORD flags) {
    return opened_with(name, access, creation, flags, NULL);
}

/* Rights for the user of the program alone. NULL where Windows doesn't tell who that is. */
static SECURITY_ATTRIBUTES *own_rights(void) {
    static union {
        TOKEN_USER is;
        uint8_t room[sizeof(TOKEN_USER) + SECURITY_MAX_SID_SIZE];
    } user;
    static union {
        ACL is;
        uint8_t room[sizeof(ACL) + sizeof(ACCESS_ALLOWED_ACE) + SECURITY_MAX_SID_SIZE];
    } list;
    static SECURITY_DESCRIPTOR rights;
    static SECURITY_ATTRIBUTES given = {sizeof given, &rights, FALSE};
    HANDLE token;
    DWORD length;
    if (!OpenProcessToken(GetCurrentProcess(), TOKEN_QUERY, &token))
        return NULL;
    int is_told = GetTokenInformation(token, TokenUser, &user, sizeof user, &length);
    CloseHandle(token);
    /* Without the last one Windows adds the rights that the folder has for its files. */
    is_told = is_told && InitializeAcl(&list.is, sizeof list, ACL_REVISION) &&
              AddAccessAllowedAce(&list.is, ACL_REVISION, FILE_ALL_ACCESS, user.is.User.Sid) &&
              InitializeSecurityDescriptor(&rights, SECURITY_DESCRIPTOR_REVISION) &&
              SetSecurityDescriptorDacl(&rights, TRUE, &list.is, FALSE) &&
              SetSecurityDescriptorControl(&rights, SE_DACL_PROTECTED, SE_DACL_PROTECTED);
    return is_told ? &given : NULL;
}

/* Creates a file that is not there. A device always is, and so is a link to nothing. Of the mode only this is kept:
 * whether others than the owner may have the file. */
static int created(const char *name, unsigned mode) {
    SECURITY_ATTRIBUTES *rights = mode & 077 ? NULL : own_rights();
    HANDLE handle = opened_with(name, GENERIC_READ | GENERIC_WRITE, CREATE_NEW, AS_LINK, rights);
    if (handle == INVALID_HANDLE_VALUE || GetFileType(handle) == FILE_TYPE_DISK)
        return numbered(handle);
    CloseHandle(handle);
    return fail_with(LINUX_EEXIST);
}

/* Opens a standard stream once more, where it stands. */
static HANDLE copied(HANDLE stream) {
    HANDLE self = GetCurrentProcess(), copy;
    return DuplicateHandle(self, stream, self, &copy, 0, FALSE, DUPLICATE_SAME_ACCESS) ? copy : INVALID_HANDLE_VALUE;
}

/* Opens a standard stream once more. A file is read from its start. A stream that was closed is a folder since the
 * program began. */
static HANDLE opened_again(HANDLE stream) {
    LARGE_INTEGER start = {.QuadPart = 0};
    if (GetFileType(stream) == FILE_TYPE_DISK)
        SetFilePointerEx(stream, start, NULL, FILE_BEGIN);
    return copied(stream);
}

int open(const char *name, int flags, ...) {
    int standard = standard_of(name);
    if (flags == TO_CREATE) {
        va_list more;
        va_start(more, flags);
        unsigned mode = va_arg(more, unsigned);
        va_end(more);
        return standard >= 0 ? fail_with(LINUX_EEXIST) : created(name, mode);
    }
    if (flags == TO_READ)
        return numbered(standard >= 0 ? opened_again(files[standard])
                                      : opened(name, GENERIC_READ, OPEN_EXISTING, AS_FOLDER_TOO));
    if (flags == TO_OVERWRITE && standard < 0)
        return numbered(opened(name, GENERIC_WRITE, CREATE_ALWAYS, FILE_ATTRIBUTE_NORMAL));
    /* The program writes a stream by its number, and opens it only to have it stored. */
    if (flags == TO_APPEND && standard >= 0)
        return numbered(copied(files[standard]));
    return fail_with(LINUX_EIO);
}

/* How many bytes are moved at a time. A console of an old Windows takes fewer than 64 KiB. */
static DWORD piece(HANDLE handle, size_t length) {
    size_t most = GetFileType(handle) == FILE_TYPE_CHAR ? 1 << 14 : 1 << 30;
    return (DWORD)(length < most ? length : most);
}

/* Fails with what Windows said last, or with another error where the handle is of a folder. */
static int fail_of(HANDLE handle, int error_of_folder) {
    int error = linux_error(GetLastError());
    statx_answer is;
    return fail_with(describe(handle, &is) == 0 && is.mode == A_FOLDER ? error_of_folder : error);
}

int64_t read(int number, uint8_t *to, size_t room) {
    HANDLE handle = handle_of(number);
    DWORD count;
    if (ReadFile(handle, to, piece(handle, room), &count, NULL))
        return count;
    /* A pipe that nobody writes any more has ended. */
    if (GetLastError() == ERROR_BROKEN_PIPE)
        return 0;
    return fail_of(handle, LINUX_EISDIR);
}

int64_t write(int number, const uint8_t *from, size_t length) {
    HANDLE handle = handle_of(number);
    DWORD count;
    /* A write of no bytes asks whether there is anything to write to. Windows tells that of what is on a disk. The
     * reader of a pipe would take such a write for the end. */
    if (length == 0 && GetFileType(handle) != FILE_TYPE_DISK)
        return handle != NULL ? 0 : fail_with(LINUX_EBADF);
    return WriteFile(handle, from, piece(handle, length), &count, NULL) ? (int64_t)count
                                                                        : fail_of(handle, LINUX_EBADF);
}

int64_t lseek(int number, int64_t offset, int whence) {
    HANDLE handle = handle_of(number);
    LARGE_INTEGER distance = {.QuadPart = offset}, position;
    /* `whence` has the same numbers on both systems. */
    if (GetFileType(handle) != FILE_TYPE_DISK || !SetFilePointerEx(handle, distance, &position, (DWORD)whence))
        return fail();
    return position.QuadPart;
}

/* The position of the file is put back. */
int64_t pread(int number, uint8_t *to, size_t room, int64_t offset) {
    int64_t position = lseek(number, 0, FILE_CURRENT);
    if (position < 0 || lseek(number, offset, FILE_BEGIN) < 0)
        return -1;
    int64_t count = read(number, to, room);
    return lseek(number, position, FILE_BEGIN) < 0 ? -1 : count;
}

/* Windows stores no folder by itself. Nothing is left to store of one: `rename` has waited for its new name. */
int fsync(int number) {
    HANDLE handle = handle_of(number);
    statx_answer is;
    if (describe(handle, &is) == 0 && is.mode == A_FOLDER)
        return 0;
    return FlushFileBuffers(handle) ? 0 : fail();
}

/* The program asks for none of the next three. The kit has them in one function with `fsync` and `fchmod`. */
int fdatasync(int number) {
    return fsync(number);
}

int ftruncate(int number, int64_t size) {
    (void)number, (void)size;
    return fail_with(LINUX_ENOSYS);
}

int flock(int number, int how) {
    (void)number, (void)how;
    return fail_with(LINUX_ENOSYS);
}

/* A file that is asked for without following links counts as a link. So the program asks `realpath` of each OUT that
 * is there, and gets its path with slashes, behind the last of which it makes the new one. */
int statx(int number, const char *name, int flags, unsigned mask, statx_answer *to) {
    (void)mask;
    int standard = standard_of(name);
    /* Linux's AT_SYMLINK_NOFOLLOW. */
    int is_of_link = (flags & 0x100) != 0;
    DWORD how = is_of_link ? AS_FOLDER_TOO | AS_LINK : AS_FOLDER_TOO;
    if (name[0] == 0 && number >= 0)
        return describe(handle_of(number), to);
    if (standard >= 0)
        return describe(files[standard], to);
    HANDLE handle = opened(name, 0, OPEN_EXISTING, how);
    if (handle == INVALID_HANDLE_VALUE)
        return fail();
    int answer = describe(handle, to);
    CloseHandle(handle);
    if (is_of_link)
        to->mode = A_LINK;
    return answer;
}

/* ---- Files that take the places of others */

/* The most bytes of a list of rights, with what stands before it. */
enum { MOST_RIGHTS = (1 << 16) + 64 };

/* Rights of a file are those of its folder and, where it replaces one, of that one. What the program asks for is what
 * `statx` told, and that has none. */
int fchmod(int number, unsigned mode) {
    (void)number, (void)mode;
    return 0;
}

/* A file is given to nobody. */
int fchown(int number, unsigned user, unsigned group) {
    (void)number, (void)user, (void)group;
    return fail_with(LINUX_ENOSYS);
}

/* The program asks for the number of its process so, where there are no random bytes. */
int64_t readlink(const char *name, uint8_t *to, size_t room) {
    (void)name, (void)to, (void)room;
    return fail_with(LINUX_ENOSYS);
}

/* The whole path of a file that is there, with slashes, so that the program finds its folder. A link is followed where
 * Windows tells the path that it leads to, which it does not on every disk. */
char *realpath(const char *name, char *to) {
    static wchar_t whole[MOST_WHOLE];
    wchar_t *from = whole;
    HANDLE handle = opened(name, 0, OPEN_EXISTING, AS_FOLDER_TOO);
    if (handle == INVALID_HANDLE_VALUE) {
        fail();
        return NULL;
    }
    DWORD count = GetFinalPathNameByHandleW(handle, whole, MOST_WHOLE, 0);
    CloseHandle(handle);
    if (count == 0 || count >= MOST_WHOLE)
        count = GetFullPathNameW(widened(name), MOST_WHOLE, whole, NULL);
    if (count == 0 || count >= MOST_WHOLE) {
        fail_with(LINUX_ENAMETOOLONG);
        return NULL;
    }
    if (wcsncmp(from, L"\\\\?\\UNC\\", 8) == 0)
        *(from += 6) = L'\\';
    else if (wcsncmp(from, L"\\\\?\\", 4) == 0)
        from += 4;
    for (wchar_t *at = from; *at != 0; at++)
        if (*at == L'\\')
            *at = L'/';
    if (WideCharToMultiByte(CP_UTF8, 0, from, -1, to, MOST_GIVEN, NULL, NULL) == 0) {
        fail_with(LINUX_ENAMETOOLONG);
        return NULL;
    }
    return to;
}

/* Gives a file the rights of another one, and has it hidden as that one is, as far as Windows lets it. ReplaceFileW
 * would do so too, but not with a file that the program has open. */
static void keep_rights(const wchar_t *name, const wchar_t *old, DWORD attributes) {
    static uint64_t rights[MOST_RIGHTS / sizeof(uint64_t)];
    DWORD length, kept = attributes & (FILE_ATTRIBUTE_HIDDEN | FILE_ATTRIBUTE_SYSTEM);
    if (GetFileSecurityW(old, DACL_SECURITY_INFORMATION, rights, sizeof rights, &length))
        SetFileSecurityW(name, DACL_SECURITY_INFORMATION, rights);
    if (kept != 0)
        SetFileAttributesW(name, kept | FILE_ATTRIBUTE_ARCHIVE);
}

/* A file that is read-only is not replaced. A new one may have to be moved to another disk. This waits until the disk
 * has the new name, so that `fsync` need not store a folder. */
int rename(const char *from, const char *to) {
    static wchar_t name[MARK + MOST_WHOLE];
    const wchar_t *wide = widened(from);
    if (wide == NULL)
        return fail();
    wcscpy(name, wide);
    wide = widened(to);
    if (wide == NULL)
        return fail();
    DWORD attributes = GetFileAttributesW(wide);
    if (attributes != INVALID_FILE_ATTRIBUTES) {
        if (attributes & FILE_ATTRIBUTE_READONLY)
            return fail_with(LINUX_EACCES);
        keep_rights(name, wide, attributes);
    }
    DWORD how = MOVEFILE_REPLACE_EXISTING | MOVEFILE_COPY_ALLOWED | MOVEFILE_WRITE_THROUGH;
    return MoveFileExW(name, wide, how) ? 0 : fail();
}

int unlink(const char *name) {
    const wchar_t *wide = widened(name);
    return wide != NULL && DeleteFileW(wide) ? 0 : fail();
}

/* ---- Random bytes, the clock, signals */

/* RtlGenRandom, which Windows exports under this name alone. */
BOOLEAN NTAPI SystemFunction036(PVOID to, ULONG length);

int getentropy(uint8_t *to, size_t length) {
    return length <= 256 && SystemFunction036(to, (ULONG)length) ? 0 : fail();
}

typedef struct {
    int64_t seconds, nanoseconds;
} timespec_answer;

int clock_gettime(int clock, timespec_answer *to) {
    LARGE_INTEGER ticks, each;
    /* Only the clock that never goes back is asked for. */
    if (clock != 1 || !QueryPerformanceCounter(&ticks) || !QueryPerformanceFrequency(&each))
        return fail();
    to->seconds = ticks.QuadPart / each.QuadPart;
    to->nanoseconds = ticks.QuadPart % each.QuadPart * 1000000000 / each.QuadPart;
    return 0;
}

/* Windows has no signal at a write that nobody reads: the write fails, as the program wants it. */
int64_t __sysv_signal(int signal, int64_t handler) {
    (void)signal, (void)handler;
    return 0;
}

/* ---- The processor */

enum { LEAVES = 3 };

/* What the processor has, of a leaf: its four registers, and the same as far as the system lets a program use it. The
 * program asks for what x86-64-v2 has, and each system lets that be used. */
const uint32_t *__x86_get_cpuid_feature_leaf(unsigned position) {
    static const unsigned leaves[LEAVES] = {1, 7, 0x80000001};
    static uint32_t told[LEAVES + 1][8];
    uint32_t *at = told[position < LEAVES ? position : LEAVES];
    if (position < LEAVES && __get_cpuid_count(leaves[position], 0, &at[0], &at[1], &at[2], &at[3]))
        memcpy(at + 4, at, 4 * sizeof *at);
    return at;
}

/* `write`, by the name by which the program says what the processor lacks. */
int64_t __write(int number, const uint8_t *from, size_t length) {
    return write(number, from, length);
}

/* ---- The start */

int main(void);

/* `main` calls this to have constructors run. There are none. */
void __main(void) {
}

/* The standard stream, or NULL where it is closed. */
static HANDLE standard_stream(DWORD which) {
    HANDLE handle = GetStdHandle(which);
    SetLastError(NO_ERROR);
    return GetFileType(handle) == FILE_TYPE_UNKNOWN && GetLastError() != NO_ERROR ? NULL : handle;
}

/* Where the program begins. The C runtime's own start is not linked in. */
void start(void) {
    static const char refusal[] = "pdbmerge: 33 Memory\n";
    int count = 0;
    /* An empty drive is an error, and no window. */
    SetErrorMode(SEM_FAILCRITICALERRORS);
    files[0] = standard_stream(STD_INPUT_HANDLE);
    files[1] = standard_stream(STD_OUTPUT_HANDLE);
    files[2] = standard_stream(STD_ERROR_HANDLE);
    words = CommandLineToArgvW(GetCommandLineW(), &count);
    if (words == NULL) {
        write(2, (const uint8_t *)refusal, sizeof refusal - 1);
        ExitProcess(1);
    }
    word_count = (size_t)count;
    ExitProcess((UINT)main());
}
