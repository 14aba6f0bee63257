! Fills in a haulier's name: thirty characters from the line typed at the terminal.
! In:  %o0 (r8) the haulier's record, %o1 (r9) the line.
! Out: %o0 the count of characters written, 30.

        clr     %l0                     ! 0  index
next:   ldub    [%o1 + %l0], %g2        ! 1  a character of the line
        add     %o0, %l0, %o2           ! 2  its place in the name
        inc     %l0                     ! 3
        cmp     %l0, 30                 ! 4
        bl      next                    ! 5
        stb     %g2, [%o2]              ! 6  slot: store it, on either way
        retl                            ! 7
        mov     %l0, %o0                ! 8  slot: the count
