! Prints the transfers of an array assignment, pair by pair, and refusals, as a
! Fortran program sees them, by both forms of the call.
program transfers
  use, intrinsic :: iso_c_binding, only: i64 => c_int64_t, i32 => c_int32_t, c_size_t
  use hpfaddr
  implicit none

  integer, parameter :: elements = 14, room = elements + 2
  integer(i32), parameter :: untouched = -1

  type :: side
    type(hpf_mapping) :: m
    type(hpf_triplet) :: s
  end type side

  type(hpf_mapping), parameter :: dense = hpf_mapping(96, 3, 4, 1, 0, 96)
  type(hpf_mapping), parameter :: every_third_cell = hpf_mapping(144, 4, 4, 3, 0, 48)
  type(side), parameter :: by_seven = side(dense, hpf_triplet(0, 95, 7))
  type(side), parameter :: downwards = side(every_third_cell, hpf_triplet(41, 2, -3))
  type(side), parameter :: one_less = side(every_third_cell, hpf_triplet(41, 5, -3))
  type(side), parameter :: beyond = side(dense, hpf_triplet(0, 98, 7))
  type(side), parameter :: no_processors = side(hpf_mapping(96, 0, 4, 1, 0, 96), hpf_triplet(0, 95, 7))
  type(side), parameter :: no_bounds = &
    side(hpf_mapping(96, 3, 4, 1, 0, 96, 2147483648_i64, 0), hpf_triplet(0, 95, 7))
  ! A(1:100) aligned with T(2*j-2), and A(-3:20) with T(2*j+1) of a template from -5 on.
  type(side), parameter :: from_one = side(hpf_mapping(200, 4, 5, 2, -2, 100, 1, 0), hpf_triplet(3, 55, 4))
  type(side), parameter :: from_minus_three = &
    side(hpf_mapping(47, 3, 4, 2, 1, 24, -3, -5), hpf_triplet(10, -3, -1))

  ! The three lists, column by column: positions, sender's addresses, receiver's
  ! addresses. And those of the call's other form.
  integer(i32) :: lists(room, 3), others(room, 3)

  call print_pairs(by_seven, downwards)
  call print_pairs(downwards, by_seven)
  call print_pairs(from_one, from_minus_three)
  call print_call('exact lists', by_seven, downwards, 2_i64, 0_i64, [3, 3, 3])
  call print_call('longer lists', by_seven, downwards, 2_i64, 0_i64, [9, 3, room])
  call print_call('few positions', by_seven, downwards, 2_i64, 0_i64, [2, 3, 3])
  call print_call('few sender''s addresses', by_seven, downwards, 2_i64, 0_i64, [3, 2, 3])
  call print_call('few receiver''s addresses', by_seven, downwards, 2_i64, 0_i64, [3, 3, 2])
  call print_call('no lists', by_seven, downwards, 2_i64, 0_i64, [0, 0, 0])
  call print_call('no lists needed', by_seven, downwards, 2_i64, 2_i64, [0, 0, 0])
  call print_call('sender -1', by_seven, downwards, -1_i64, 0_i64, [0, 0, 0])
  call print_call('sender 3', by_seven, downwards, 3_i64, 0_i64, [3, 3, 3])
  call print_call('sender 4', by_seven, downwards, 4_i64, 0_i64, [3, 3, 3])
  call print_call('receiver 3', by_seven, downwards, 2_i64, 3_i64, [3, 3, 3])
  call print_call('one element less', by_seven, one_less, 2_i64, 0_i64, [0, 0, 0])
  call print_call('left at fault', beyond, downwards, -1_i64, 0_i64, [3, 3, 3])
  call print_call('right at fault', by_seven, no_processors, 2_i64, 0_i64, [3, 3, 3])
  call print_call('both at fault', beyond, no_processors, 2_i64, 0_i64, [3, 3, 3])
  call print_call('left bound at fault', no_bounds, no_processors, 2_i64, 0_i64, [3, 3, 3])
  call print_call('right bound at fault', by_seven, no_bounds, -1_i64, 0_i64, [3, 3, 3])
  print '(a, i0)', 'counts ', hpf_refused_counts
  print '(a, i0)', 'room ', hpf_refused_room

contains

  ! A transfer into the first entries of each list.
  function transferred(l, r, sender, receiver, entries) result(answer)
    type(side), intent(in) :: l, r
    integer(i64), intent(in) :: sender, receiver
    integer, intent(in) :: entries(3)
    type(hpf_transferred) :: answer, typed
    integer(c_size_t) :: n(3)
    n = entries
    lists = untouched
    others = untouched
    answer = hpf_transfers(l%m%cells, l%m%processors, l%m%block, l%m%stride, l%m%offset, l%m%size, &
      l%m%array_lower, l%m%template_lower, l%s%lower, l%s%upper, l%s%stride, &
      r%m%cells, r%m%processors, r%m%block, r%m%stride, r%m%offset, r%m%size, &
      r%m%array_lower, r%m%template_lower, r%s%lower, r%s%upper, r%s%stride, sender, receiver, &
      lists(:, 1), n(1), lists(:, 2), n(2), lists(:, 3), n(3))
    typed = hpf_transfers(l%m, l%s, r%m, r%s, sender, receiver, &
      others(:n(1), 1), others(:n(2), 2), others(:n(3), 3))
    if (any(transfer(answer, [0_i32]) /= transfer(typed, [0_i32])) .or. any(lists /= others)) then
      error stop 'the two forms of a call differ'
    end if
  end function transferred

  subroutine print_pairs(l, r)
    type(side), intent(in) :: l, r
    type(hpf_transferred) :: answer
    integer(i64) :: sender, receiver
    do sender = 0, r%m%processors - 1
      do receiver = 0, l%m%processors - 1
        answer = transferred(l, r, sender, receiver, [elements, elements, elements])
        write (*, '(i0, a, i0, a)', advance='no') sender, ' to ', receiver, ':'
        call print_entries(answer%entries)
        write (*, '()')
      end do
    end do
  end subroutine print_pairs

  ! The entries that the lists hold, in the lists' order.
  subroutine print_entries(entries)
    integer(i32), intent(in) :: entries
    integer :: i
    do i = 1, entries
      write (*, '(3(a, i0), a)', advance='no') ' ', lists(i, 1), ' (', lists(i, 2), ' to ', lists(i, 3), ')'
    end do
  end subroutine print_entries

  ! One call, and how many elements of the lists it wrote.
  subroutine print_call(name, l, r, sender, receiver, entries)
    character(*), intent(in) :: name
    type(side), intent(in) :: l, r
    integer(i64), intent(in) :: sender, receiver
    integer, intent(in) :: entries(3)
    type(hpf_transferred) :: answer
    answer = transferred(l, r, sender, receiver, entries)
    print '(2a, 2(i0, 1x), i0, a, i0, a)', name, ': ', answer%refusal, answer%entries, answer%needed, &
      ', ', count(lists /= untouched), ' written'
  end subroutine print_call

end program transfers
