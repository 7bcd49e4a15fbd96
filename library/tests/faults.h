/* Stands before asked.c when it is compiled for faults.c: each call of the system goes through a function there. */
#ifndef FAULTS_H
#define FAULTS_H
#define _GNU_SOURCE
#include <fcntl.h>
#include <sys/file.h>
#include <sys/stat.h>
#include <unistd.h>

int faulty_open(const char *path, int flags, int mode);
int faulty_fstat(int end, struct stat *found);
int faulty_lstat(const char *path, struct stat *found);
int faulty_flock(int end, int how);
int faulty_fsync(int end);
ssize_t faulty_pread(int end, void *bytes, size_t length, off_t at);
ssize_t faulty_pwrite(int end, const void *bytes, size_t length, off_t at);

#define open(path, flags, mode) faulty_open(path, flags, mode)
#define fstat(end, found) faulty_fstat(end, found)
#define lstat(path, found) faulty_lstat(path, found)
#define flock(end, how) faulty_flock(end, how)
#define fsync(end) faulty_fsync(end)
#define pread(end, bytes, length, at) faulty_pread(end, bytes, length, at)
#define pwrite(end, bytes, length, at) faulty_pwrite(end, bytes, length, at)
#endif
