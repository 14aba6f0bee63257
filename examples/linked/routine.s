! The discount of a vehicle's haulier, in tenths of a percent; 0 for a vehicle without one.
! In:  %o0 (r8) the vehicle's record.
! Out: %o0 the discount.

        ld      [%o0 + 8], %g1          ! 0  the haulier's record, or null
        cmp     %g1, 0                  ! 1
        be      done                    ! 2
        clr     %o0                     ! 3  slot: the discount if there is none
        lduh    [%g1 + 36], %o0         ! 4  not null here
done:   retl                            ! 5
        nop                             ! 6  slot
