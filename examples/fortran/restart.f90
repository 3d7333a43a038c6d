! An array x(1:20) of reals on 3 processors is saved to a file in index order, and a run
! on 4 processors, with another template and other blocks, goes on from that file. What
! the file holds says nothing of either shape.
program restart
  use, intrinsic :: iso_c_binding, only: i64 => c_int64_t, r64 => c_double
  use hpfaddr
  implicit none

  ! x(j) is aligned with t(2*j-1) of t(1:40), and then with t(3*j-8) of t(-5:54).
  type(hpf_mapping), parameter :: before = hpf_mapping(cells=40, processors=3, block=4, &
    stride=2, offset=-1, size=20, array_lower=1, template_lower=1)
  type(hpf_mapping), parameter :: after = hpf_mapping(cells=60, processors=4, block=5, &
    stride=3, offset=-8, size=20, array_lower=1, template_lower=-5)
  integer :: unit

  open (newunit=unit, status='scratch', access='stream', form='unformatted')
  call save_array()
  rewind (unit)
  call load_array()
  close (unit)

contains

  subroutine save_array()
    real(r64) :: storage(before%size), saved(before%size)
    type(hpf_copied) :: copied
    call compute(storage)
    call print_storage('before', before, storage)
    copied = hpf_checkpoint(before, storage, saved)
    if (copied%refusal /= hpf_accepted) error stop 'the checkpoint is refused'
    write (unit) saved
    print '(a, *(:, 1x, f0.2))', 'saved:', saved
  end subroutine save_array

  subroutine load_array()
    real(r64) :: storage(after%size), saved(after%size)
    type(hpf_copied) :: copied
    read (unit) saved
    copied = hpf_restore(after, saved, storage)
    if (copied%refusal /= hpf_accepted) error stop 'the restore is refused'
    call print_storage('after', after, storage)
    call check(storage)
  end subroutine load_array

  ! What the computation is to give for an element.
  pure function element(index) result(x)
    integer(i64), intent(in) :: index
    real(r64) :: x
    x = index + 0.25_r64
  end function element

  ! Each processor computes the elements that it holds.
  subroutine compute(storage)
    real(r64), intent(out) :: storage(0:)
    type(hpf_found) :: found
    integer(i64) :: processor, address
    do processor = 0, before%processors - 1
      do address = 0, held(before, processor) - 1
        found = hpf_going_back(before, processor, address)
        storage(start(before, processor) + address) = element(int(found%index, i64))
      end do
    end do
  end subroutine compute

  ! Each element lies after the words of all lower processors, at its local address, bit
  ! for bit.
  subroutine check(storage)
    real(r64), intent(in) :: storage(0:)
    type(hpf_owned) :: owned
    integer(i64) :: index, place
    do index = after%array_lower, after%array_lower + after%size - 1
      owned = hpf_ownership(after, index)
      place = start(after, int(owned%processor, i64)) + owned%address
      if (transfer(storage(place), 0_i64) /= transfer(element(index), 0_i64)) error stop 'an element is lost'
    end do
    print '(a, i0, a)', 'all ', after%size, ' elements are where their new owners have them'
  end subroutine check

  ! How many elements a processor holds.
  function held(m, processor) result(elements)
    type(hpf_mapping), intent(in) :: m
    integer(i64), intent(in) :: processor
    integer(i64) :: elements
    type(hpf_counted) :: counted
    counted = hpf_local_count(m, processor)
    if (counted%refusal /= hpf_accepted) error stop 'the mapping is refused'
    elements = counted%elements
  end function held

  ! Where a processor's words begin in storage, from 0.
  function start(m, processor) result(place)
    type(hpf_mapping), intent(in) :: m
    integer(i64), intent(in) :: processor
    integer(i64) :: place, lower
    place = 0
    do lower = 0, processor - 1
      place = place + held(m, lower)
    end do
  end function start

  subroutine print_storage(when, m, storage)
    character(*), intent(in) :: when
    type(hpf_mapping), intent(in) :: m
    real(r64), intent(in) :: storage(0:)
    integer(i64) :: processor
    do processor = 0, m%processors - 1
      print '(2a, i0, a, *(:, 1x, f0.2))', when, ', processor ', processor, ' holds', &
        storage(start(m, processor):start(m, processor + 1) - 1)
    end do
  end subroutine print_storage

end program restart
