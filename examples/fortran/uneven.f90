! Work on the rows of a triangular matrix: row j has j elements, so that runs of equal
! length would give the last processor most of the work. x(1:24), one word for each row,
! comes from an earlier run in blocks of 2. Here it is dealt by sizes that share the work,
! each processor adds up its rows, the longest first, and x is saved in index order.
program uneven
  use, intrinsic :: iso_c_binding, only: i64 => c_int64_t, r64 => c_double, c_int32_t
  use hpfaddr
  implicit none

  integer(i64), parameter :: rows = 24, processors = 4
  ! x(j) is on cell j - 1 of either template.
  type(hpf_mapping), parameter :: in_blocks = hpf_mapping(cells=rows, processors=processors, block=2, &
    stride=1, offset=-1, size=rows, array_lower=1)
  type(hpf_triplet), parameter :: all_rows = hpf_triplet(lower=1, upper=rows, stride=1)
  type(hpf_triplet), parameter :: longest_first = hpf_triplet(lower=rows, upper=1, stride=-1)
  type(hpf_gen_block_mapping) :: by_work
  real(r64) :: old(0:rows - 1), new(0:rows - 1)
  ! How many words each processor holds, in blocks and by sizes.
  type(hpf_counted) :: old_held(0:processors - 1), new_held(0:processors - 1)
  integer(i64) :: processor

  by_work = hpf_gen_block_mapping(cells=rows, processors=processors, sizes=sizes_by_work(), &
    stride=1, offset=-1, size=rows, array_lower=1)
  do processor = 0, processors - 1
    old_held(processor) = hpf_local_count(in_blocks, processor)
    new_held(processor) = hpf_local_count(by_work, processor)
  end do
  if (any(old_held%refusal /= hpf_accepted) .or. any(new_held%refusal /= hpf_accepted)) error stop 'a mapping is refused'
  call load(old)
  call move(old, new)
  do processor = 0, processors - 1
    call add_up(processor, new)
  end do
  call save_and_check(new)

contains

  ! Rows go to a processor until it and those before it have their share of the elements.
  function sizes_by_work() result(sizes)
    integer(c_int32_t) :: sizes(processors)
    integer(i64) :: row, dealt, last
    sizes = 0
    dealt = 0
    last = 1
    do row = 1, rows
      sizes(last) = sizes(last) + 1
      dealt = dealt + row
      if (dealt * processors >= last * (rows * (rows + 1) / 2) .and. last < processors) last = last + 1
    end do
    print '(a, *(1x, i0))', 'sizes:', sizes
  end function sizes_by_work

  ! What the run in blocks left, x(j) = j, as it wrote it: in index order.
  subroutine load(storage)
    real(r64), intent(out) :: storage(0:)
    type(hpf_copied) :: copied
    integer(i64) :: row
    copied = hpf_restore(in_blocks, [(real(row, r64), row = 1, rows)], storage)
    if (copied%refusal /= hpf_accepted) error stop 'the restore is refused'
  end subroutine load

  ! Each pair of an old owner and a new one.
  subroutine move(old, new)
    real(r64), intent(in) :: old(0:)
    real(r64), intent(out) :: new(0:)
    type(hpf_transferred) :: moved
    integer(c_int32_t) :: positions(rows), sent(rows), received(rows), words(0:processors - 1)
    integer(i64) :: sender, receiver, n
    do sender = 0, processors - 1
      do receiver = 0, processors - 1
        moved = hpf_transfers(by_work, all_rows, in_blocks, all_rows, sender, receiver, positions, sent, received)
        if (moved%refusal /= hpf_accepted) error stop 'the transfer is refused'
        n = moved%entries
        new(start(new_held, receiver) + received(:n)) = old(start(old_held, sender) + sent(:n))
        words(receiver) = moved%entries
      end do
      print '(a, i0, a, *(1x, i0))', 'words from processor ', sender, ':', words
    end do
  end subroutine move

  ! A processor's rows, five at a time.
  subroutine add_up(processor, storage)
    integer(i64), intent(in) :: processor
    real(r64), intent(inout) :: storage(0:)
    type(hpf_steps) :: steps
    type(hpf_placed) :: first
    type(hpf_filled) :: filled
    integer(c_int32_t) :: list(5)
    integer(i64) :: place, work
    steps = hpf_section_steps(by_work, longest_first)
    first = hpf_first_place(by_work, longest_first, processor)
    if (steps%refusal /= hpf_accepted .or. first%refusal /= hpf_accepted) error stop 'the section is refused'
    write (*, '(a, i0, a)', advance='no') 'processor ', processor, ' at addresses'
    place = first%place
    work = 0
    do while (place /= steps%count)
      filled = hpf_fill_words(by_work, longest_first, processor, place, hpf_largest_quota, list)
      write (*, '(*(:, 1x, i0))', advance='no') list(:filled%entries)
      call add_rows(processor, list(:filled%entries), storage, work)
      place = filled%place
    end do
    print '(a, i0, a)', ' adds up ', work, ' elements'
  end subroutine add_up

  subroutine add_rows(processor, addresses, storage, work)
    integer(i64), intent(in) :: processor
    integer(c_int32_t), intent(in) :: addresses(:)
    real(r64), intent(inout) :: storage(0:)
    integer(i64), intent(inout) :: work
    type(hpf_found) :: row
    integer(i64) :: place
    integer :: i, element
    do i = 1, size(addresses)
      row = hpf_going_back(by_work, processor, int(addresses(i), i64))
      place = start(new_held, processor) + addresses(i)
      do element = 1, row%index
        storage(place) = storage(place) + 0.5_r64 * element
      end do
      work = work + row%index
    end do
  end subroutine add_rows

  subroutine save_and_check(storage)
    real(r64), intent(in) :: storage(0:)
    real(r64) :: x(rows)
    type(hpf_copied) :: copied
    integer(i64) :: j
    copied = hpf_checkpoint(by_work, storage, x)
    if (copied%refusal /= hpf_accepted) error stop 'the checkpoint is refused'
    print '(a, *(1x, f0.1))', 'x:', x
    if (any(abs(x - [(j + 0.25_r64 * j * (j + 1), j = 1, rows)]) > 0)) error stop 'a row is lost'
  end subroutine save_and_check

  ! Where a processor's words begin: after those of all lower ones.
  pure function start(held, processor)
    type(hpf_counted), intent(in) :: held(0:)
    integer(i64), intent(in) :: processor
    integer(i64) :: start
    start = sum(held(:processor - 1)%elements)
  end function start

end program uneven
