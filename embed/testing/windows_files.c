/* The file calls of native/windows.c, one by one. Its status is 0, or the number of the line that fails. */
#include "../native/files.h"
#include "c8.h"

#include <stdio.h>
#include <string.h>
#include <windows.h>

#define MUST(holds) \
    if (!(holds)) return printf("line %d: %s\n", __LINE__, #holds), __LINE__

enum { TO_END = 2, LOCK = 6, EIO_OF_LINUX = 5, EAGAIN_OF_LINUX = 11 };
/* UTF-8 for an o with two points, in the C library's own path and here */
static const char path[] = "j\xc3\xb6urnal";

static int files(void) {
    int32_t file, folder, again, above;
    char bytes[8] = {0};
    MUST(c8_journal_open(path, &file, &folder) == 0);
    MUST(GetFileAttributesW(L"j\x00f6urnal") != INVALID_FILE_ATTRIBUTES);
    MUST(file >= 0 && folder >= 0 && file != folder);
    MUST(c8os_lseek(file, 0, TO_END) == 0);
    MUST(c8os_pread(file, bytes, 8, 0) == 0);
    MUST(c8os_pwrite(file, "abcdef", 6, 0) == 6 && c8os_pwrite(file, "XY", 2, 6) == 2);
    MUST(c8os_lseek(file, 0, TO_END) == 8);
    MUST(c8os_flock(file, LOCK) == 0);
    MUST(c8_journal_open(path, &again, &above) == 0);
    MUST(c8os_flock(again, LOCK) == -1 && c8os_rattle_errno() == EAGAIN_OF_LINUX);
    /* another program may read what is locked */
    MUST(c8os_pread(again, bytes, 8, 3) == 5 && !memcmp(bytes, "defXY", 5));
    MUST(c8os_pread(again, bytes, 8, 8) == 0 && c8os_pread(again, bytes, 8, 9) == 0);
    MUST(c8os_fsync(file) == 0 && c8os_fdatasync(file) == 0 && c8os_fsync(folder) == 0);
    MUST(c8os_close(file) == 0 && c8os_close(folder) == 0);
    MUST(c8os_flock(again, LOCK) == 0);
    MUST(c8os_close(again) == 0 && c8os_close(above) == 0);
    MUST(c8os_pwrite(again, bytes, 1, 0) == -1 && c8os_rattle_errno() == EIO_OF_LINUX);
    return 0;
}

static int paths(void) {
    int32_t file, folder;
    MUST(c8_journal_open("no/such/journal", &file, &folder) == -1 && GetLastError() == ERROR_PATH_NOT_FOUND);
    MUST(c8_journal_open(".", &file, &folder) == -1);
    MUST(c8_journal_open("NUL", &file, &folder) == -1 && GetLastError() == ERROR_INVALID_PARAMETER);
    MUST(c8_journal_open("\xff", &file, &folder) == -1);
    return 0;
}

int main(void) {
    int line = files();
    DeleteFileW(L"j\x00f6urnal");
    return line ? line : paths();
}
