! The heaviest of ten axle loads; 0 if no vehicle is on the scale.
! In:  %o0 (r8) the axle loads, %o1 (r9) 1 if a vehicle is on the scale, or 0.
! Out: %o0 the heaviest load.

        clr     %g3                     ! 0  the heaviest so far
        clr     %g1                     ! 1  the load's offset: 0, 4, .. 36
        cmp     %o1, 0                  ! 2
        be      done                    ! 3  no vehicle
next:   ld      [%o0 + %g1], %g2        ! 4  slot of word 3, and the loop's first word: a load
        cmp     %g2, %g3                ! 5
        bg,a    more                    ! 6
        mov     %g2, %g3                ! 7  slot, skipped unless this load is heavier
more:   cmp     %g1, 36                 ! 8  is it the last?
        bl      next                    ! 9  lands on the slot of word 3
        add     %g1, 4, %g1             ! 10 slot: the next load, on either way
done:   retl                            ! 11
        mov     %g3, %o0                ! 12 slot
