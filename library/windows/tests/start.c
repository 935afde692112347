/* Starts a program of Windows with standard streams as a shell of Windows redirects them, for tests/windows.
 *
 * usage: start INPUT OUTPUT ERRORS COMMAND-LINE
 *
 * INPUT, OUTPUT and ERRORS are files. "-" is a stream that is closed, and "|" a pipe: what comes out of it goes to
 * standard output. A stream of "+NAME" follows what the file has, and one of "<NAME" can only be read. ERRORS may be
 * "=", which is the stream of OUTPUT. In COMMAND-LINE an @ stands for one half of a surrogate pair. The status is that
 * of the program. */
#include <windows.h>

static HANDLE pipe_end;

static HANDLE stream_of(const wchar_t *name, DWORD access, DWORD creation) {
    SECURITY_ATTRIBUTES inherited = {sizeof inherited, NULL, TRUE};
    HANDLE handle = NULL;
    if (wcscmp(name, L"-") == 0)
        return NULL;
    if (wcscmp(name, L"|") == 0) {
        CreatePipe(&pipe_end, &handle, &inherited, 0);
        SetHandleInformation(pipe_end, HANDLE_FLAG_INHERIT, 0);
        return handle;
    }
    int is_followed = name[0] == L'+', is_read = name[0] == L'<';
    handle = CreateFileW(name + (is_followed || is_read), is_read ? GENERIC_READ : access,
                         FILE_SHARE_READ | FILE_SHARE_WRITE | FILE_SHARE_DELETE, &inherited,
                         is_followed || is_read ? OPEN_EXISTING : creation, FILE_ATTRIBUTE_NORMAL, NULL);
    if (is_followed)
        SetFilePointer(handle, 0, NULL, FILE_END);
    return handle;
}

/* Writes all that comes out of the pipe. */
static void pass_on(void) {
    char bytes[4096];
    DWORD count, written;
    while (pipe_end != NULL && ReadFile(pipe_end, bytes, sizeof bytes, &count, NULL) && count != 0)
        WriteFile(GetStdHandle(STD_OUTPUT_HANDLE), bytes, count, &written, NULL);
}

int wmain(int count, wchar_t **words) {
    STARTUPINFOW how = {.cb = sizeof how, .dwFlags = STARTF_USESTDHANDLES};
    PROCESS_INFORMATION started;
    HANDLE self = GetCurrentProcess();
    DWORD status;
    if (count != 5)
        return 2;
    for (wchar_t *at = words[4]; *at != 0; at++)
        if (*at == L'@')
            *at = 0xd800;
    how.hStdInput = stream_of(words[1], GENERIC_READ, OPEN_EXISTING);
    how.hStdOutput = stream_of(words[2], GENERIC_WRITE, CREATE_ALWAYS);
    if (wcscmp(words[3], L"=") == 0)
        DuplicateHandle(self, how.hStdOutput, self, &how.hStdError, 0, TRUE, DUPLICATE_SAME_ACCESS);
    else
        how.hStdError = stream_of(words[3], GENERIC_WRITE, CREATE_ALWAYS);
    if (!CreateProcessW(NULL, words[4], NULL, NULL, TRUE, 0, NULL, NULL, &how, &started))
        return 3;
    CloseHandle(how.hStdOutput);
    if (how.hStdError != how.hStdOutput)
        CloseHandle(how.hStdError);
    pass_on();
    WaitForSingleObject(started.hProcess, INFINITE);
    GetExitCodeProcess(started.hProcess, &status);
    return (int)status;
}
