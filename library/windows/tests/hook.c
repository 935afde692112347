/* Has pdbmerge.dll allocate by the functions of library/c/tests/failing.c, as --wrap does on Linux: each entry of its
 * import table for malloc, realloc or free leads to them. So what is tested is the DLL that is shipped. */
#include <stdint.h>
#include <stdlib.h>
#include <string.h>
#include <windows.h>

void *__wrap_malloc(size_t size);
void *__wrap_realloc(void *block, size_t size);
void __wrap_free(void *block);

void *__real_malloc(size_t size) {
    return malloc(size);
}

void *__real_realloc(void *block, size_t size) {
    return realloc(block, size);
}

void __real_free(void *block) {
    free(block);
}

/* What a name of the import table leads to, if it is one of the three. */
static uintptr_t hook_of(const char *name) {
    return strcmp(name, "malloc") == 0    ? (uintptr_t)__wrap_malloc
           : strcmp(name, "realloc") == 0 ? (uintptr_t)__wrap_realloc
           : strcmp(name, "free") == 0    ? (uintptr_t)__wrap_free
                                          : 0;
}

static void lead(uintptr_t *entry, uintptr_t hook) {
    DWORD before;
    if (VirtualProtect(entry, sizeof *entry, PAGE_READWRITE, &before))
        *entry = hook;
}

__attribute__((constructor)) static void hook_all(void) {
    uint8_t *base = (uint8_t *)GetModuleHandleW(L"pdbmerge.dll");
    IMAGE_NT_HEADERS64 *head = (void *)(base + ((IMAGE_DOS_HEADER *)base)->e_lfanew);
    IMAGE_IMPORT_DESCRIPTOR *from =
        (void *)(base + head->OptionalHeader.DataDirectory[IMAGE_DIRECTORY_ENTRY_IMPORT].VirtualAddress);
    for (; from->Name != 0; from++) {
        uintptr_t *names = (void *)(base + from->OriginalFirstThunk), *entries = (void *)(base + from->FirstThunk);
        for (; *names != 0; names++, entries++) {
            uintptr_t hook = hook_of((const char *)((IMAGE_IMPORT_BY_NAME *)(base + *names))->Name);
            if (hook != 0)
                lead(entries, hook);
        }
    }
}
