# What picolibc's headers declare of POSIX and the machine has nothing for. Each call fails as POSIX has it.
        .equ    EPERM, 1
        .equ    ENOENT, 2
        .equ    EINVAL, 22
        .equ    EROFS, 30
        .equ    ENOSYS, 88
        .cfi_sections .debug_frame

        .macro  begin name
        .section .text.\name, "ax", @progbits
        .weak   \name
        .type   \name, @function
\name:
        .cfi_startproc
        .endm

        .macro  end name
        ret
        .cfi_endproc
        .size   \name, . - \name
        .endm

        .macro  gives value, names:vararg
        .irp    name, \names
        begin   \name
        li      a0, \value
        end     \name
        .endr
        .endm

        # Sets errno, and gives a value.
        .macro  fails error, value, names:vararg
        .irp    name, \names
        begin   \name
        lui     a1, %tprel_hi(errno)
        add     a1, a1, tp, %tprel_add(errno)
        li      a0, \error
        sw      a0, %tprel_lo(errno)(a1)
        li      a0, \value
        end     \name
        .endr
        .endm

        # Names of files: there are none, and none can be made.
        fails   ENOENT, -1, access, chdir, chmod, chown, eaccess, euidaccess, faccessat, fchmodat, fchownat, fstatat
        fails   ENOENT, -1, futimesat, lchown, link, linkat, lstat, lutimes, openat, pathconf, readlink, readlinkat
        fails   ENOENT, -1, rename, revoke, rmdir, stat, truncate, unlink, unlinkat, utime, utimensat, utimes
        fails   ENOENT, -1, execl, execle, execlp, execlpe, execv, execve, execvp, execvpe
        fails   ENOENT, 0, get_current_dir_name, getcwd, getwd, realpath, ttyname
        fails   EROFS, -1, creat, mkdir, mkdirat, mkfifo, mkfifoat, mknod, mknodat, mkostemp, symlink, symlinkat
        fails   EROFS, 0, mkdtemp

        # Other processes, users, terminals, clocks and signals from outside.
        fails   ENOSYS, -1, daemon, dup, dup2, dup3, fchdir, fchmod, fchown, fcntl, fdatasync, fexecve, flock, fork
        fails   ENOSYS, -1, ftime, futimens, futimes, getdomainname, getgroups, gethostname, getitimer, getpeereid
        fails   ENOSYS, -1, getpgid, getrusage, getsid, killpg, lockf, nice, pause, pipe, pipe2, pread, pselect
        fails   ENOSYS, -1, pwrite, select, setitimer, sigaction, sigaltstack, sigpause, sigpending, sigprocmask
        fails   ENOSYS, -1, sigqueue, sigsuspend, sigtimedwait, sigwaitinfo, tcgetpgrp, tcsetpgrp, usleep, vfork
        fails   ENOSYS, -1, vhangup, wait, _wait, waitpid
        fails   ENOSYS, 0, crypt, getgrent, getgrgid, getgrnam, getlogin, getpass, getpwent, getpwnam, getpwuid
        fails   ENOSYS, 0, getusershell, secure_getenv
        fails   EPERM, -1, adjtime, chroot, initgroups, setdtablesize, setegid, seteuid, setgid, setgroups, sethostname
        fails   EPERM, -1, setpgid, setpgrp, setregid, setreuid, setsid, settimeofday, setuid
        fails   EINVAL, -1, fpathconf, sysconf
        gives   ENOSYS, getgrgid_r, getgrnam_r, getpwnam_r, getpwuid_r, posix_spawn, posix_spawnp, pthread_sigmask
        gives   ENOSYS, sigwait, ttyname_r
        gives   0, alarm, confstr, endgrent, endpwent, endusershell, getegid, geteuid, getgid, gethostid
        gives   0, getppid, getuid, issetugid, setgrent, setpassent, setpwent, setusershell, sync, ualarm, umask
        gives   1, getpgrp
        gives   3, getdtablesize
