/* The C library's calls that change files, of which the one whose number CALL holds does what HOW says, and makes the link MARK: `kill`
 * ends the program before it, `killed` behind it, and `half` amid it, when half of a write is done; `short` writes one byte; a number is
 * the error with which it fails, and so do those behind it where ONWARDS isn't empty. */
#define _GNU_SOURCE
#include <dlfcn.h>
#include <errno.h>
#include <fcntl.h>
#include <signal.h>
#include <stdarg.h>
#include <stdlib.h>
#include <string.h>
#include <sys/stat.h>
#include <unistd.h>

static int writes[1024];

static int is(const char *how)
{
	return !strcmp(getenv("HOW"), how);
}

/* Whether this call is disturbed: 1 where it is the one, 2 where it is behind it. */
static int disturbed(void)
{
	static long calls;
	long call = atol(getenv("CALL"));

	if (++calls == call)
		symlink("reached", getenv("MARK"));
	if (calls == call && is("kill"))
		raise(SIGKILL);
	return calls == call ? 1 : calls > call && *getenv("ONWARDS") ? 2 : 0;
}

/* Whether a disturbed call fails instead of being made, and with which error. */
static int fails(int disturbed)
{
	int error = atoi(getenv("HOW"));

	if (disturbed && error)
		errno = error;
	return disturbed && error;
}

#define MADE(type, call) do { type given = (call); if (now == 1 && (is("killed") || is("half"))) raise(SIGKILL); return given; } while (0)
#define REAL(type, name, ...) type (*real)(__VA_ARGS__) = dlsym(RTLD_NEXT, name)

int open(const char *path, int flags, ...)
{
	REAL(int, "open", const char *, int, ...);
	va_list more;
	int now, mode, made;

	va_start(more, flags);
	mode = flags & O_CREAT ? va_arg(more, int) : 0;
	va_end(more);
	if (!(flags & (O_WRONLY | O_RDWR)))
		return real(path, flags, mode);
	now = disturbed();
	if (fails(now))
		return -1;
	made = real(path, flags, mode);
	if (made >= 0 && made < 1024)
		writes[made] = 1;
	MADE(int, made);
}

ssize_t write(int file, const void *bytes, size_t size)
{
	REAL(ssize_t, "write", int, const void *, size_t);
	int now;

	if (file < 0 || file >= 1024 || !writes[file])
		return real(file, bytes, size);
	now = disturbed();
	if (fails(now))
		return -1;
	if (now == 1 && (is("half") || is("short")))
		size = is("short") ? 1 : size / 2;
	MADE(ssize_t, real(file, bytes, size));
}

int close(int file)
{
	REAL(int, "close", int);
	int now;

	if (file < 0 || file >= 1024 || !writes[file])
		return real(file);
	now = disturbed();
	writes[file] = 0;
	if (fails(now)) {
		int error = errno;
		real(file);
		errno = error;
		return -1;
	}
	MADE(int, real(file));
}

#define CHANGE(name, parameters, ...) \
	int name parameters \
	{ \
		int (*real) parameters = dlsym(RTLD_NEXT, #name); \
		int now = disturbed(); \
		if (fails(now)) \
			return -1; \
		MADE(int, real(__VA_ARGS__)); \
	}
CHANGE(fchmod, (int file, mode_t mode), file, mode)
CHANGE(fsync, (int file), file)
CHANGE(chown, (const char *path, uid_t user, gid_t group), path, user, group)
CHANGE(rename, (const char *from, const char *to), from, to)
CHANGE(unlink, (const char *path), path)
