/* Runs a command, and writes what it took to the file RESULT: microseconds of processor time, KiB of memory at most, its wait status.
 * An interpreter that ran it itself would tell no less memory than its own, which a process keeps as its most when it begins another
 * program. */
#include <stdio.h>
#include <sys/resource.h>
#include <sys/wait.h>
#include <unistd.h>

int main(int count, char **words)
{
	struct rusage used;
	int status;
	FILE *result = fopen(words[1], "w");
	pid_t child = count > 2 && result ? fork() : -1;

	if (child < 0)
		return 1;
	if (child == 0) {
		fclose(result);
		execvp(words[2], words + 2);
		_exit(127);
	}
	wait4(child, &status, 0, &used);
	fprintf(result, "%lld %ld %d\n", (long long)(used.ru_utime.tv_sec + used.ru_stime.tv_sec) * 1000000 + used.ru_utime.tv_usec + used.ru_stime.tv_usec,
		used.ru_maxrss, status);
	return fclose(result);
}
