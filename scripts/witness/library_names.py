"""Functions that the C library has (C17 7, and what POSIX and usual systems add).

A program that is read by pulsex may have a function of such a name. Beside the headers of the witness it would be declared
twice, and in the linked program it could take the place of the library's, so it is renamed.
"""

NAMES = """
a64l abort abs aligned_alloc alloca at_quick_exit atexit atof atoi atol atoll bsearch calloc clearenv div drand48
ecvt erand48 exit fcvt free gcvt getenv getloadavg getsubopt grantpt initstate jrand48 l64a labs lcong48 ldiv llabs
lldiv lrand48 malloc mblen mbstowcs mbtowc mkdtemp mkostemp mkostemps mkstemp mkstemps mktemp mrand48 nrand48
on_exit posix_memalign posix_openpt pselect ptsname putenv qsort quick_exit rand random realloc reallocarray
realpath rpmatch seed48 select setenv setstate srand srand48 srandom strtod strtof strtol strtold strtoll strtoq
strtoul strtoull strtouq system unlockpt unsetenv valloc wcstombs wctomb
asprintf clearerr ctermid cuserid dprintf fclose fdopen feof ferror fflush fgetc fgetpos fgets fileno flockfile
fmemopen fopen fopencookie fprintf fputc fputs fread freopen fscanf fseek fseeko fsetpos ftell ftello ftrylockfile
funlockfile fwrite getc getchar getdelim getline getw open_memstream pclose perror popen printf putc putchar puts
putw remove rename renameat rewind scanf setbuf setbuffer setlinebuf setvbuf snprintf sprintf sscanf tempnam tmpfile
tmpnam ungetc vasprintf vdprintf vfprintf vfscanf vprintf vscanf vsnprintf vsprintf vsscanf
bcmp bcopy bzero ffs index memccpy memchr memcmp memcpy memmem memmove mempcpy memset rindex stpcpy stpncpy
strcasecmp strcat strchr strchrnul strcmp strcoll strcpy strcspn strdup strerror strlcat strlcpy strlen strncasecmp
strncat strncmp strncpy strndup strnlen strpbrk strrchr strsep strsignal strspn strstr strtok strtok_r strxfrm swab
isalnum isalpha isascii isblank iscntrl isdigit isgraph islower isprint ispunct isspace isupper isxdigit toascii
tolower toupper
asctime clock ctime difftime gmtime localtime mktime nanosleep strftime time timegm
localeconv longjmp raise setjmp setlocale sigaction signal
accept access alarm bind brk chdir chmod chown close connect dup dup2 execv execve execvp fcntl fork fstat fsync
ftruncate getcwd getpid getuid ioctl kill link listen lseek lstat mkdir mmap mprotect munmap open opendir pause pipe
poll pread pwrite read readdir readlink readv recv rmdir sbrk send sendfile shutdown sleep socket stat symlink sync
sysconf truncate umask uname unlink usleep wait waitpid write writev
gamma j0 j1 jn signbit y0 y1 yn
FILE div_t fpos_t ldiv_t lldiv_t off_t pid_t size_t ssize_t time_t u_char u_int u_long u_short uint ulong ushort va_list
wchar_t
"""

# Each of these also ends in f and in l.
MATHEMATICS = """
acos acosh asin asinh atan atan2 atanh cbrt ceil copysign cos cosh erf erfc exp exp2 expm1 fabs fdim floor fma fmax
fmin fmod frexp hypot ilogb ldexp lgamma llrint llround log log10 log1p log2 logb lrint lround modf nan nearbyint
nextafter nexttoward pow remainder remquo rint round scalbln scalbn sin sinh sqrt tan tanh tgamma trunc
"""

# (these are in a library of their own, which isn't always linked)
MATHEMATICAL_NAMES = frozenset(name + end for name in MATHEMATICS.split() for end in ("", "f", "l"))
LIBRARY_NAMES = frozenset(NAMES.split()) | MATHEMATICAL_NAMES

# Words that are names in the files that pulsex reads, and something else for a compiler: keywords of C23 and of usual
# compilers, macros that are always there or that stdio.h and stdlib.h have, and structs of these headers.
TAKEN_WORDS = frozenset(
    """
    _Alignas _Alignof _Atomic _Bool _Complex _Generic _Imaginary _Noreturn _Static_assert _Thread_local alignas alignof asm
    bool constexpr false nullptr static_assert thread_local true typeof typeof_unqual
    BUFSIZ EOF EXIT_FAILURE EXIT_SUCCESS FILENAME_MAX FOPEN_MAX L_tmpnam MB_CUR_MAX P_tmpdir RAND_MAX SEEK_CUR SEEK_END
    SEEK_SET TMP_MAX WNOHANG WUNTRACED i386 linux stderr stdin stdout unix
    drand48_data random_data timespec timeval
    """.split()
)
