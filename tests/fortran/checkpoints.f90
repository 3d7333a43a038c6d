! Prints arrays saved in index order and restored, and refusals, as a Fortran program
! sees them, by every form of each call.
program checkpoints
  use, intrinsic :: iso_c_binding, only: i64 => c_int64_t, r64 => c_double, c_int32_t, c_size_t, &
    c_ptr, c_loc, c_null_ptr
  use hpfaddr
  implicit none

  integer(c_size_t), parameter :: most = 24, room = most + 2
  integer(i64), parameter :: untouched = -1000

  ! The README's picture, and as many elements on two processors in blocks of 3.
  type(hpf_mapping), parameter :: picture = hpf_mapping(24, 3, 4, 3, 1, 8)
  type(hpf_mapping), parameter :: two_processors = hpf_mapping(8, 2, 3, 1, 0, 8)
  ! A(-3:20) aligned with T(2*j+1) of a template from -5 on.
  type(hpf_mapping), parameter :: from_minus_three = hpf_mapping(47, 3, 4, 2, 1, 24, -3, -5)
  ! Every second processor has no elements.
  type(hpf_mapping), parameter :: whole_blocks = hpf_mapping(144, 4, 4, 8, -8, 18, array_lower=1)
  type(hpf_mapping), parameter :: in_turn = hpf_mapping(9, 2, 2, 2, 2, 4, template_lower=1)
  type(hpf_mapping), parameter :: one_element = hpf_mapping(1, 1, 1, 1, 0, 1)
  type(hpf_mapping), parameter :: no_elements = hpf_mapping(1, 1024, 65536, 5, -7, 0)

  ! The two lists of a call, column by column, and those of its other forms.
  integer, parameter :: storage = 1, saved = 2
  integer(i64), target :: lists(room, 2), others(room, 2, 3)
  real(r64) :: reals(room, 2, 2)

  call print_array('picture', picture)
  call print_array('two processors', two_processors)
  call print_array('from -3', from_minus_three)
  call print_array('whole blocks', whole_blocks)
  call print_array('in turn', in_turn)
  call print_calls('exact lists', picture, 8_c_size_t, 8_c_size_t)
  call print_calls('longer lists', picture, room, 9_c_size_t)
  call print_calls('one element', one_element, 1_c_size_t, 1_c_size_t)
  call print_calls('no elements, no lists', no_elements, 0_c_size_t, 0_c_size_t)
  call print_calls('no elements, longer lists', no_elements, 2_c_size_t, room)
  call print_doubles(picture, two_processors)
  call print_bits()
  call print_refusals()
  print '(a, i0)', 'room ', hpf_refused_room

contains

  ! Of n words of storage, into a list of s words.
  function checkpoint(m, n, s) result(copied)
    type(hpf_mapping), intent(in) :: m
    integer(c_size_t), intent(in) :: n, s
    type(hpf_copied) :: copied, other(5)
    call copy_lists()
    other(1) = hpf_checkpoint(m, list_of(others(:, storage, 1), n), n, list_of(others(:, saved, 1), s), s)
    other(2) = hpf_checkpoint(m, others(:n, storage, 2), others(:s, saved, 2))
    other(3) = hpf_checkpoint(m, reals(:n, storage, 1), reals(:s, saved, 1))
    other(4) = hpf_checkpoint(m%cells, m%processors, m%block, m%stride, m%offset, m%size, &
      m%array_lower, m%template_lower, others(:n, storage, 3), others(:s, saved, 3))
    other(5) = hpf_checkpoint(m%cells, m%processors, m%block, m%stride, m%offset, m%size, &
      m%array_lower, m%template_lower, reals(:n, storage, 2), reals(:s, saved, 2))
    copied = hpf_checkpoint(m%cells, m%processors, m%block, m%stride, m%offset, m%size, &
      m%array_lower, m%template_lower, list_of(lists(:, storage), n), n, list_of(lists(:, saved), s), s)
    call expect_same_copies(copied, other)
  end function checkpoint

  ! Of a list of s words, into n words of storage.
  function restore(m, s, n) result(copied)
    type(hpf_mapping), intent(in) :: m
    integer(c_size_t), intent(in) :: s, n
    type(hpf_copied) :: copied, other(5)
    call copy_lists()
    other(1) = hpf_restore(m, list_of(others(:, saved, 1), s), s, list_of(others(:, storage, 1), n), n)
    other(2) = hpf_restore(m, others(:s, saved, 2), others(:n, storage, 2))
    other(3) = hpf_restore(m, reals(:s, saved, 1), reals(:n, storage, 1))
    other(4) = hpf_restore(m%cells, m%processors, m%block, m%stride, m%offset, m%size, &
      m%array_lower, m%template_lower, others(:s, saved, 3), others(:n, storage, 3))
    other(5) = hpf_restore(m%cells, m%processors, m%block, m%stride, m%offset, m%size, &
      m%array_lower, m%template_lower, reals(:s, saved, 2), reals(:n, storage, 2))
    copied = hpf_restore(m%cells, m%processors, m%block, m%stride, m%offset, m%size, &
      m%array_lower, m%template_lower, list_of(lists(:, saved), s), s, list_of(lists(:, storage), n), n)
    call expect_same_copies(copied, other)
  end function restore

  function list_of(list, words) result(start)
    integer(i64), intent(in), target :: list(room)
    integer(c_size_t), intent(in) :: words
    type(c_ptr) :: start
    start = c_null_ptr
    if (words > 0) start = c_loc(list)
  end function list_of

  subroutine copy_lists()
    integer :: form
    do form = 1, size(others, 3)
      others(:, :, form) = lists
    end do
    do form = 1, size(reals, 3)
      reals(:, :, form) = reshape(transfer(lists, reals), shape(lists))
    end do
  end subroutine copy_lists

  subroutine expect_same_copies(copied, other)
    type(hpf_copied), intent(in) :: copied, other(:)
    integer :: form
    do form = 1, size(other)
      call expect_same(transfer(copied, [0_c_int32_t]), transfer(other(form), [0_c_int32_t]))
    end do
    do form = 1, size(others, 3)
      call expect_same(transfer(lists, [0_c_int32_t]), transfer(others(:, :, form), [0_c_int32_t]))
    end do
    do form = 1, size(reals, 3)
      call expect_same(transfer(lists, [0_c_int32_t]), transfer(reals(:, :, form), [0_c_int32_t]))
    end do
  end subroutine expect_same_copies

  include 'same.inc'

  ! Two lists: one counts up from a number, and the other is untouched.
  function counting_up(counting, first) result(set)
    integer, intent(in) :: counting
    integer(i64), intent(in) :: first
    integer(i64) :: set(room, 2), i
    set = untouched
    set(:, counting) = [(first + i, i = 0, room - 1)]
  end function counting_up

  ! Each index restored to where its element is, and each place of storage saved.
  subroutine print_array(name, m)
    character(*), intent(in) :: name
    type(hpf_mapping), intent(in) :: m
    type(hpf_copied) :: copied
    lists = counting_up(saved, m%array_lower)
    copied = restore(m, room, room)
    write (*, '(2a, i0, 1x, i0, a)', advance='no') name, ' restored, ', copied%refusal, copied%needed, ','
    call print_storage(m)
    lists = counting_up(storage, 0_i64)
    copied = checkpoint(m, room, room)
    print '(2a, i0, 1x, i0, a, *(:, 1x, i0))', name, ' saved, ', copied%refusal, copied%needed, ':', &
      lists(:m%size, saved)
  end subroutine print_array

  ! The words of storage, processor by processor.
  subroutine print_storage(m)
    type(hpf_mapping), intent(in) :: m
    type(hpf_counted) :: held
    integer(i64) :: processor, before
    before = 0
    do processor = 0, m%processors - 1
      held = hpf_local_count(m, processor)
      write (*, '(a, i0, a, *(:, 1x, i0))', advance='no') ' on ', processor, ':', &
        lists(before + 1:before + held%elements, storage)
      before = before + held%elements
    end do
    write (*, '()')
  end subroutine print_storage

  ! A checkpoint and a restore with lists of so many words, and how many words each
  ! changed in the two lists.
  subroutine print_calls(name, m, storage_words, saved_words)
    character(*), intent(in) :: name
    type(hpf_mapping), intent(in) :: m
    integer(c_size_t), intent(in) :: storage_words, saved_words
    type(hpf_copied) :: copied
    lists = counting_up(storage, 1_i64)
    copied = checkpoint(m, storage_words, saved_words)
    write (*, '(a, 3(a, i0), a)', advance='no') name, ': ', copied%refusal, ' ', copied%needed, &
      ', ', count(lists /= counting_up(storage, 1_i64)), ' written'
    lists = counting_up(saved, 1_i64)
    copied = restore(m, saved_words, storage_words)
    print '(3(a, i0), a)', '; ', copied%refusal, ' ', copied%needed, &
      ', ', count(lists /= counting_up(saved, 1_i64)), ' written'
  end subroutine print_calls

  ! Doubles, saved under one mapping and restored under another.
  subroutine print_doubles(from, to)
    type(hpf_mapping), intent(in) :: from, to
    real(r64) :: old(most), in_order(most), moved(most)
    type(hpf_copied) :: copied, restored
    integer :: i
    old = [(1.25_r64 * i, i = 1, most)]
    in_order = 0
    moved = 0
    copied = hpf_checkpoint(from, old, in_order)
    restored = hpf_restore(to, in_order, moved)
    print '(a, i0, 1x, i0, a, *(:, 1x, f0.2))', 'doubles, ', copied%refusal, restored%refusal, ':', moved(:to%size)
  end subroutine print_doubles

  ! Words of any bits: a signalling NaN, minus 0, the least number, and all bits set.
  subroutine print_bits()
    type(hpf_copied) :: copied
    lists = counting_up(storage, 0_i64)
    lists(:4, storage) = [int(z'7FF0000000000001', i64), ibset(0_i64, 63), 1_i64, not(0_i64)]
    copied = checkpoint(in_turn, 4_c_size_t, 4_c_size_t)
    print '(a, i0, a, 4(1x, z16.16))', 'bits, ', copied%refusal, ':', lists(:4, saved)
  end subroutine print_bits

  subroutine print_refusals()
    integer(i64), parameter :: least = -huge(0_i64) - 1, past = 2147483648_i64
    integer(c_size_t), parameter :: none = 0, exact = 8
    call print_calls('no cells', hpf_mapping(0, 3, 4, 3, 1, 8), exact, exact)
    call print_calls('1025 processors', hpf_mapping(24, 1025, 4, 3, 1, 8), exact, exact)
    call print_calls('block of 65537', hpf_mapping(24, 3, 65537, 3, 1, 8), exact, exact)
    call print_calls('stride 0', hpf_mapping(24, 3, 4, 0, 1, 8), exact, exact)
    call print_calls('offset 2147483648', hpf_mapping(24, 3, 4, 3, past, 8, past, 0), exact, exact)
    call print_calls('-1 elements', hpf_mapping(24, 3, 4, 3, 1, -1, past, 0), exact, exact)
    call print_calls('lower bound 2147483648', hpf_mapping(24, 3, 4, 3, 1, 8, past, 0), exact, exact)
    call print_calls('last declared cell 2147483648', hpf_mapping(24, 3, 4, 3, 1, 8, 0, past - 23), exact, exact)
    call print_calls('offset -1', hpf_mapping(24, 3, 4, 3, -1, 8), exact, exact)
    call print_calls('9 elements', hpf_mapping(24, 3, 4, 3, 1, 9), none, none)
    call print_calls('all at fault', &
      hpf_mapping(least, least, least, least, least, least, least, least), none, none)
    call print_calls('few words of storage', picture, exact - 1, exact)
    call print_calls('few words saved', picture, exact, exact - 1)
    call print_calls('no lists', picture, none, none)
    call print_calls('no storage', picture, none, room)
    call print_calls('nothing saved', picture, room, none)
    call print_calls('2147483647 elements', hpf_mapping(2147483647, 3, 4, 1, 0, 2147483647), room, room)
  end subroutine print_refusals

end program checkpoints
