/* Makes gcc and g++ write .debug_frame in addition to .eh_frame: gcc -g -include tools/cfi.h ..
   It must come before any function of the compilation unit. clang has -fforce-dwarf-frame. */
__asm__(".cfi_sections .eh_frame, .debug_frame");
