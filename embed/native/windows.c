/* What the library calls of Windows for a journal in a file, and c8_journal_open and c8_journal_read.
 *
 * A descriptor is a handle: Windows keeps their upper 32 bits clear. The library has Linux's numbers of errors and flags. Its calls
 * begin with c8os_, because Windows' C library has functions lseek and close of other types. Descriptors of the C library do not occur,
 * since a DLL and an engine do not share them. */
#define WIN32_LEAN_AND_MEAN
#define _WIN32_WINNT 0x0601
#include <windows.h>

#include "c8.h"
#include "files.h"

#include <wchar.h>

enum { LINUX_EIO = 5, LINUX_EAGAIN = 11, LINUX_ENOSPC = 28 };
enum { MOST = 1 << 30 };

static HANDLE handle_of(int32_t descriptor) { return (HANDLE)(intptr_t)descriptor; }

static OVERLAPPED place(int64_t at) {
    OVERLAPPED o = {0};
    o.Offset = (DWORD)at;
    o.OffsetHigh = (DWORD)(at >> 32);
    return o;
}

/* The library tells apart a lock that another session has, a full disk, and all else. */
int32_t c8os_rattle_errno(void) {
    switch (GetLastError()) {
    case ERROR_LOCK_VIOLATION:
    case ERROR_IO_PENDING: return LINUX_EAGAIN;
    case ERROR_DISK_FULL:
    case ERROR_HANDLE_DISK_FULL: return LINUX_ENOSPC;
    default: return LINUX_EIO;
    }
}

int64_t c8os_pread(int32_t file, void *bytes, uint64_t length, int64_t at) {
    OVERLAPPED o = place(at);
    DWORD count = 0;
    if (ReadFile(handle_of(file), bytes, length > MOST ? MOST : (DWORD)length, &count, &o)) return count;
    return GetLastError() == ERROR_HANDLE_EOF ? 0 : -1;
}

int64_t c8os_pwrite(int32_t file, const void *bytes, uint64_t length, int64_t at) {
    OVERLAPPED o = place(at);
    DWORD count = 0;
    return WriteFile(handle_of(file), bytes, length > MOST ? MOST : (DWORD)length, &count, &o) ? (int64_t)count : -1;
}

/* The library asks for the end alone. */
int64_t c8os_lseek(int32_t file, int64_t offset, int32_t whence) {
    LARGE_INTEGER size;
    (void)offset, (void)whence;
    return GetFileSizeEx(handle_of(file), &size) ? size.QuadPart : -1;
}

static bool is_folder(int32_t file) {
    BY_HANDLE_FILE_INFORMATION of;
    return GetFileInformationByHandle(handle_of(file), &of) && of.dwFileAttributes & FILE_ATTRIBUTE_DIRECTORY;
}

/* Of a folder: NTFS logs a new name, and flushes its log with the file. Windows promises no more, and refuses to flush a folder on
 * some disks and without the right to write. */
int32_t c8os_fsync(int32_t file) {
    if (FlushFileBuffers(handle_of(file))) return 0;
    return is_folder(file) ? 0 : -1;
}

int32_t c8os_fdatasync(int32_t file) { return FlushFileBuffers(handle_of(file)) ? 0 : -1; }

/* Locks a byte far behind the end, because Windows keeps others from reading what is locked. The library asks for a lock of its own,
 * and does not wait. */
int32_t c8os_flock(int32_t file, int32_t how) {
    OVERLAPPED o = place(INT64_MAX - 1);
    (void)how;
    return LockFileEx(handle_of(file), LOCKFILE_EXCLUSIVE_LOCK | LOCKFILE_FAIL_IMMEDIATELY, 0, 1, 0, &o) ? 0 : -1;
}

/* Windows cannot drop the copies of a file that are in memory: an opening may read them in place of the disk. */
int32_t c8os_posix_fadvise(int32_t file, int64_t at, int64_t length, int32_t how) {
    (void)file, (void)at, (void)length, (void)how;
    return 0;
}

int32_t c8os_close(int32_t file) { return CloseHandle(handle_of(file)) ? 0 : -1; }

/* ---- c8_journal_open and c8_journal_read, in place of c8_journal.c; the path is UTF-8 */

/* Closes what was opened, and keeps the cause of the failure. */
static int failed(HANDLE opened, DWORD why) {
    if (opened != INVALID_HANDLE_VALUE) CloseHandle(opened);
    SetLastError(why);
    return -1;
}

static bool fits(HANDLE it) { return (intptr_t)it >= 0 && (intptr_t)it <= INT32_MAX; }

static wchar_t *room_for(size_t length) { return HeapAlloc(GetProcessHeap(), 0, length * sizeof(wchar_t)); }

static void give_back(wchar_t *path) { HeapFree(GetProcessHeap(), 0, path); }

static HANDLE open_file(const char *path, DWORD access, DWORD how) {
    int room = MultiByteToWideChar(CP_UTF8, MB_ERR_INVALID_CHARS, path, -1, NULL, 0);
    wchar_t *wide = room > 0 ? room_for((size_t)room) : NULL;
    if (!wide) return INVALID_HANDLE_VALUE;
    MultiByteToWideChar(CP_UTF8, 0, path, -1, wide, room);
    HANDLE opened = CreateFileW(wide, access, FILE_SHARE_READ | FILE_SHARE_WRITE, NULL, how, FILE_ATTRIBUTE_NORMAL, NULL);
    DWORD why = GetLastError();
    give_back(wide);
    SetLastError(why);
    return opened;
}

static HANDLE open_folder(const wchar_t *path, DWORD access) {
    enum { SHARE = FILE_SHARE_READ | FILE_SHARE_WRITE | FILE_SHARE_DELETE };
    return CreateFileW(path, access, SHARE, NULL, OPEN_EXISTING, FILE_FLAG_BACKUP_SEMANTICS, NULL);
}

/* The folder that has the name of this file; a link was followed. */
static HANDLE folder_of(HANDLE file) {
    HANDLE folder = INVALID_HANDLE_VALUE;
    DWORD room = GetFinalPathNameByHandleW(file, NULL, 0, FILE_NAME_NORMALIZED);
    wchar_t *path = room ? room_for((size_t)room + 1) : NULL;
    DWORD length = path ? GetFinalPathNameByHandleW(file, path, room + 1, FILE_NAME_NORMALIZED) : 0;
    wchar_t *slash = length && length <= room ? wcsrchr(path, L'\\') : NULL;
    if (slash) {
        slash[1] = 0; /* a folder of a disk keeps its slash */
        folder = open_folder(path, GENERIC_WRITE);
        if (folder == INVALID_HANDLE_VALUE) folder = open_folder(path, GENERIC_READ);
    }
    DWORD why = GetLastError();
    if (path) give_back(path);
    SetLastError(why);
    return folder;
}

int c8_journal_read(const char *path, int32_t *file) {
    HANDLE opened = open_file(path, GENERIC_READ, OPEN_EXISTING);
    if (opened == INVALID_HANDLE_VALUE) return failed(opened, GetLastError());
    if (GetFileType(opened) != FILE_TYPE_DISK) return failed(opened, ERROR_INVALID_PARAMETER);
    if (!fits(opened)) return failed(opened, ERROR_TOO_MANY_OPEN_FILES);
    *file = (int32_t)(intptr_t)opened;
    return 0;
}

int c8_journal_open(const char *path, int32_t *file, int32_t *folder) {
    HANDLE opened = open_file(path, GENERIC_READ | GENERIC_WRITE, OPEN_ALWAYS);
    if (opened == INVALID_HANDLE_VALUE) return failed(opened, GetLastError());
    if (GetFileType(opened) != FILE_TYPE_DISK) return failed(opened, ERROR_INVALID_PARAMETER);
    HANDLE above = folder_of(opened);
    if (above == INVALID_HANDLE_VALUE) return failed(opened, GetLastError());
    if (!fits(opened) || !fits(above)) {
        CloseHandle(above);
        return failed(opened, ERROR_TOO_MANY_OPEN_FILES);
    }
    *file = (int32_t)(intptr_t)opened;
    *folder = (int32_t)(intptr_t)above;
    return 0;
}
