! The sum of the elements of an array (Figure 1 of source document 000, instruction for instruction).
! In:  %o0 (r8) the array, %o1 (r9) the count of its elements.
! Out: %o0 the sum.

        mov     %o0, %o2                ! 0  the array
        clr     %o0                     ! 1  the sum
        cmp     %o0, %o1                ! 2
        bge     done                    ! 3
        clr     %g3                     ! 4  slot: index
next:   sll     %g3, 2, %g2             ! 5  its offset: 4 bytes an element
        ld      [%o2 + %g2], %g2        ! 6
        inc     %g3                     ! 7
        cmp     %g3, %o1                ! 8
        bl      next                    ! 9
        add     %o0, %g2, %o0           ! 10 slot: on either way
done:   retl                            ! 11
        nop                             ! 12 slot
