/* The calls of a journal's file under the names that the library has for them on systems other than Linux. windows.c and posix.c have
 * those that differ there. */
#ifndef C8_FILES_H
#define C8_FILES_H

#include <stdint.h>

int32_t c8os_rattle_errno(void);
int64_t c8os_pread(int32_t file, void *bytes, uint64_t length, int64_t at);
int64_t c8os_pwrite(int32_t file, const void *bytes, uint64_t length, int64_t at);
int64_t c8os_lseek(int32_t file, int64_t offset, int32_t whence);
int32_t c8os_fsync(int32_t file);
int32_t c8os_fdatasync(int32_t file);
int32_t c8os_flock(int32_t file, int32_t how);
int32_t c8os_posix_fadvise(int32_t file, int64_t at, int64_t length, int32_t how);
int32_t c8os_close(int32_t file);

#endif
