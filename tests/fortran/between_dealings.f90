! Prints the transfers between arrays in blocks and arrays by sizes, and arrays by sizes
! saved and restored, as a Fortran program sees them, by every form of each call.
program between_dealings
  use, intrinsic :: iso_c_binding, only: i64 => c_int64_t, i32 => c_int32_t, r64 => c_double, c_int32_t, c_size_t, c_loc
  use hpfaddr
  implicit none

  integer, parameter :: elements = 10, room = elements + 2
  integer(i32), parameter :: untouched = -1
  integer(i32), parameter :: by_work(4) = [3, 0, 5, 4], one_less(4) = [3, 0, 5, 1]
  type(hpf_triplet), parameter :: up = hpf_triplet(0, 9, 1), down = hpf_triplet(9, 0, -1)
  type(hpf_triplet), parameter :: from_ten = hpf_triplet(10, 1, -1)
  type(hpf_mapping) :: in_blocks
  type(hpf_gen_block_mapping) :: uneven, from_one

  ! The three lists, column by column: positions, sender's addresses, receiver's
  ! addresses. And those of the call's other form.
  integer(i32) :: lists(room, 3), others(room, 3)

  ! The assignments: uneven(up) = in_blocks(down), in_blocks(up) = uneven(down), and
  ! uneven(up) = from_one(from_ten).
  integer, parameter :: from_block = 1, to_block = 2, of_sizes = 3

  in_blocks = hpf_mapping(10, 2, 3, 1, 0, 10)
  uneven = hpf_gen_block_mapping(10, 4, by_work, 1, 0, 10)
  ! A(1:10) aligned with T(3*j-7) of a template from -4 on.
  from_one = hpf_gen_block_mapping(30, 4, [0, 9, 21, 0], 3, -7, 10, 1, -4)
  call print_pairs(from_block, 2, 4)
  call print_pairs(to_block, 4, 2)
  call print_pairs(of_sizes, 4, 4)
  call print_calls()
  call print_moved('uneven', uneven, elements)
  call print_moved('from one', from_one, room)
  call print_moved('nine words', uneven, elements - 1)
  call print_moved('sum 9', hpf_gen_block_mapping(10, 4, one_less, 1, 0, 10), elements)

contains

  ! A transfer into the first n entries of each list.
  function transferred(assignment, sender, receiver, n) result(answer)
    integer, intent(in) :: assignment
    integer(i64), intent(in) :: sender, receiver
    integer(c_size_t), intent(in) :: n
    type(hpf_transferred) :: answer
    lists = untouched
    others = untouched
    select case (assignment)
    case (from_block)
      answer = transferred_from_block(sender, receiver, n)
    case (to_block)
      answer = transferred_to_block(sender, receiver, n)
    case default
      answer = transferred_of_sizes(sender, receiver, n)
    end select
  end function transferred

  function transferred_from_block(sender, receiver, n) result(answer)
    integer(i64), intent(in) :: sender, receiver
    integer(c_size_t), intent(in) :: n
    type(hpf_transferred) :: answer, typed
    associate (l => uneven, s => up, r => in_blocks, t => down)
      answer = hpf_transfers(l%cells, l%processors, l%sizes, l%stride, l%offset, l%size, l%array_lower, &
        l%template_lower, s%lower, s%upper, s%stride, r%cells, r%processors, r%block, r%stride, r%offset, r%size, &
        r%array_lower, r%template_lower, t%lower, t%upper, t%stride, sender, receiver, &
        lists(:, 1), n, lists(:, 2), n, lists(:, 3), n)
      typed = hpf_transfers(l, s, r, t, sender, receiver, others(:n, 1), others(:n, 2), others(:n, 3))
    end associate
    call expect_same_lists(answer, typed)
  end function transferred_from_block

  function transferred_to_block(sender, receiver, n) result(answer)
    integer(i64), intent(in) :: sender, receiver
    integer(c_size_t), intent(in) :: n
    type(hpf_transferred) :: answer, typed
    associate (l => in_blocks, s => up, r => uneven, t => down)
      answer = hpf_transfers(l%cells, l%processors, l%block, l%stride, l%offset, l%size, l%array_lower, &
        l%template_lower, s%lower, s%upper, s%stride, r%cells, r%processors, r%sizes, r%stride, r%offset, r%size, &
        r%array_lower, r%template_lower, t%lower, t%upper, t%stride, sender, receiver, &
        lists(:, 1), n, lists(:, 2), n, lists(:, 3), n)
      typed = hpf_transfers(l, s, r, t, sender, receiver, others(:n, 1), others(:n, 2), others(:n, 3))
    end associate
    call expect_same_lists(answer, typed)
  end function transferred_to_block

  function transferred_of_sizes(sender, receiver, n) result(answer)
    integer(i64), intent(in) :: sender, receiver
    integer(c_size_t), intent(in) :: n
    type(hpf_transferred) :: answer, typed
    associate (l => uneven, s => up, r => from_one, t => from_ten)
      answer = hpf_transfers(l%cells, l%processors, l%sizes, l%stride, l%offset, l%size, l%array_lower, &
        l%template_lower, s%lower, s%upper, s%stride, r%cells, r%processors, r%sizes, r%stride, r%offset, r%size, &
        r%array_lower, r%template_lower, t%lower, t%upper, t%stride, sender, receiver, &
        lists(:, 1), n, lists(:, 2), n, lists(:, 3), n)
      typed = hpf_transfers(l, s, r, t, sender, receiver, others(:n, 1), others(:n, 2), others(:n, 3))
    end associate
    call expect_same_lists(answer, typed)
  end function transferred_of_sizes

  subroutine expect_same_lists(answer, typed)
    type(hpf_transferred), intent(in) :: answer, typed
    call expect_same(transfer(answer, [0_i32]), transfer(typed, [0_i32]))
    call expect_same(reshape(lists, [size(lists)]), reshape(others, [size(others)]))
  end subroutine expect_same_lists

  include 'same.inc'

  subroutine print_pairs(assignment, senders, receivers)
    integer, intent(in) :: assignment, senders, receivers
    type(hpf_transferred) :: answer
    integer(i64) :: sender, receiver
    integer :: i
    do sender = 0, senders - 1
      do receiver = 0, receivers - 1
        answer = transferred(assignment, sender, receiver, int(elements, c_size_t))
        print '(i0, a, i0, a, *(:, 3(a, i0), a))', sender, ' to ', receiver, ':', &
          (' ', lists(i, 1), ' (', lists(i, 2), ' to ', lists(i, 3), ')', i = 1, answer%entries)
      end do
    end do
  end subroutine print_pairs

  ! One call, and how many elements of the lists it wrote.
  subroutine print_call(name, assignment, sender, receiver, n)
    character(*), intent(in) :: name
    integer, intent(in) :: assignment, sender, receiver, n
    type(hpf_transferred) :: answer
    answer = transferred(assignment, int(sender, i64), int(receiver, i64), int(n, c_size_t))
    print '(2a, 2(i0, 1x), i0, a, i0, a)', name, ': ', answer%refusal, answer%entries, answer%needed, &
      ', ', count(lists /= untouched), ' written'
  end subroutine print_call

  subroutine print_calls()
    call print_call('exact lists', from_block, 1, 2, 3)
    call print_call('longer lists', from_block, 1, 2, room)
    call print_call('short lists', from_block, 1, 2, 2)
    call print_call('no lists', from_block, 1, 2, 0)
    call print_call('no lists needed', from_block, 1, 1, 0)
    call print_call('sender 2', from_block, 2, 2, 3)
    call print_call('receiver 4', from_block, 1, 4, 3)
    uneven%sizes = one_less
    call print_call('sum 9 on the left', from_block, 1, 2, 3)
    call print_call('sum 9 on the right', to_block, 1, 1, 3)
    in_blocks%block = 0
    call print_call('sum 9 and block 0', from_block, 1, 2, 3)
    call print_call('block 0 and sum 9', to_block, 1, 2, 3)
    uneven%sizes = by_work
    in_blocks%block = 3
  end subroutine print_calls

  ! Words of an array in blocks, saved; restored by sizes; and saved again.
  subroutine print_moved(name, m, n)
    character(*), intent(in) :: name
    type(hpf_gen_block_mapping), intent(in) :: m
    integer, intent(in) :: n
    type(hpf_copied) :: copied, restored
    integer(i64), target :: storage(room), saved(room)
    integer(i64) :: i
    storage = [(i, i = 0, room - 1)]
    saved = untouched
    copied = hpf_checkpoint(in_blocks, storage, saved)
    restored = restore(m, int(n, c_size_t), saved, storage)
    write (*, '(2a, i0, 1x, i0, a, *(:, 1x, i0))', advance='no') &
      name, ' restored, ', restored%refusal, restored%needed, ':', storage
    saved = untouched
    copied = checkpoint(m, int(n, c_size_t), storage, saved)
    print '(a, i0, 1x, i0, a, *(:, 1x, i0))', '; saved, ', copied%refusal, copied%needed, ':', saved
  end subroutine print_moved

  function restore(m, n, saved, storage) result(copied)
    type(hpf_gen_block_mapping), intent(in) :: m
    integer(c_size_t), intent(in) :: n
    integer(i64), intent(in), target, contiguous :: saved(:)
    integer(i64), intent(inout), target, contiguous :: storage(:)
    type(hpf_copied) :: copied, other(5)
    integer(i64), target :: words(size(storage), 3)
    real(r64) :: reals(size(storage), 3)
    words = spread(storage, 2, 3)
    reals = reshape(transfer([storage, storage, saved], reals), shape(reals))
    other(1) = hpf_restore(m, c_loc(saved), n, c_loc(words(1, 1)), n)
    other(2) = hpf_restore(m, saved(:n), words(:n, 2))
    other(3) = hpf_restore(m, reals(:n, 3), reals(:n, 1))
    other(4) = hpf_restore(m%cells, m%processors, m%sizes, m%stride, m%offset, m%size, &
      m%array_lower, m%template_lower, saved(:n), words(:n, 3))
    other(5) = hpf_restore(m%cells, m%processors, m%sizes, m%stride, m%offset, m%size, &
      m%array_lower, m%template_lower, reals(:n, 3), reals(:n, 2))
    copied = hpf_restore(m%cells, m%processors, m%sizes, m%stride, m%offset, m%size, &
      m%array_lower, m%template_lower, c_loc(saved), n, c_loc(storage), n)
    call expect_same_copies(copied, other, storage, words, reals(:, :2))
  end function restore

  function checkpoint(m, n, storage, saved) result(copied)
    type(hpf_gen_block_mapping), intent(in) :: m
    integer(c_size_t), intent(in) :: n
    integer(i64), intent(in), target, contiguous :: storage(:)
    integer(i64), intent(inout), target, contiguous :: saved(:)
    type(hpf_copied) :: copied, other(5)
    integer(i64), target :: words(size(saved), 3)
    real(r64) :: reals(size(saved), 3)
    words = spread(saved, 2, 3)
    reals = reshape(transfer([saved, saved, storage], reals), shape(reals))
    other(1) = hpf_checkpoint(m, c_loc(storage), n, c_loc(words(1, 1)), n)
    other(2) = hpf_checkpoint(m, storage(:n), words(:n, 2))
    other(3) = hpf_checkpoint(m, reals(:n, 3), reals(:n, 1))
    other(4) = hpf_checkpoint(m%cells, m%processors, m%sizes, m%stride, m%offset, m%size, &
      m%array_lower, m%template_lower, storage(:n), words(:n, 3))
    other(5) = hpf_checkpoint(m%cells, m%processors, m%sizes, m%stride, m%offset, m%size, &
      m%array_lower, m%template_lower, reals(:n, 3), reals(:n, 2))
    copied = hpf_checkpoint(m%cells, m%processors, m%sizes, m%stride, m%offset, m%size, &
      m%array_lower, m%template_lower, c_loc(storage), n, c_loc(saved), n)
    call expect_same_copies(copied, other, saved, words, reals(:, :2))
  end function checkpoint

  ! All forms answer the same, and leave the same words.
  subroutine expect_same_copies(copied, other, written, words, reals)
    type(hpf_copied), intent(in) :: copied, other(:)
    integer(i64), intent(in) :: written(:), words(:, :)
    real(r64), intent(in) :: reals(:, :)
    integer :: form
    do form = 1, size(other)
      call expect_same(transfer(copied, [0_i32]), transfer(other(form), [0_i32]))
    end do
    do form = 1, size(words, 2)
      call expect_same(transfer(written, [0_i32]), transfer(words(:, form), [0_i32]))
    end do
    do form = 1, size(reals, 2)
      call expect_same(transfer(written, [0_i32]), transfer(reals(:, form), [0_i32]))
    end do
  end subroutine expect_same_copies

end program between_dealings
