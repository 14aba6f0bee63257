! The tare of a vehicle, which is the lightest of its eight empty weighings, and the net weight.
! In:  %o0 (r8) the vehicle, %o1 (r9) the ticket.
! Out: %o0 the net weight.

        lduh    [%o0], %g3              ! 0  the lightest so far: the first
        mov     2, %g1                  ! 1  the offset of the next: 2, 4, .. 14
next:   lduh    [%o0 + %g1], %g2        ! 2
        cmp     %g2, %g3                ! 3
        bl,a    keep                    ! 4
        mov     %g2, %g3                ! 5  slot, skipped unless this one is lighter
keep:   cmp     %g1, 14                 ! 6  is it the last?
        bl      next                    ! 7
        add     %g1, 2, %g1             ! 8  slot: the next weighing, on either way
        sth     %g3, [%o1]              ! 9  the tare
        ld      [%o0 + 16], %g4         ! 10 the gross weight
        sub     %g4, %g3, %g4           ! 11
        cmp     %g4, 0                  ! 12
        bl,a    done                    ! 13
        clr     %g4                     ! 14 slot, skipped unless it is lighter than empty
done:   st      %g4, [%o1 + 4]          ! 15 the net weight
        retl                            ! 16
        mov     %g4, %o0                ! 17 slot
