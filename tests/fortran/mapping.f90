! Prints owners, addresses, counts and refusals, as a Fortran program sees them, by
! both forms of each call.
program mapping
  use, intrinsic :: iso_c_binding, only: i64 => c_int64_t, c_int32_t
  use hpfaddr
  implicit none

  type(hpf_mapping), parameter :: dense = &
    hpf_mapping(cells=96, processors=3, block=4, stride=1, offset=0, size=96)
  type(hpf_mapping), parameter :: every_third_cell = &
    hpf_mapping(cells=144, processors=4, block=4, stride=3, offset=0, size=48)
  ! A(1:100) aligned with T(2*j-2), and A(-3:20) with T(2*j+1) of a template from -5 on.
  type(hpf_mapping), parameter :: from_one = hpf_mapping(200, 4, 5, 2, -2, 100, array_lower=1)
  type(hpf_mapping), parameter :: from_minus_three = hpf_mapping(47, 3, 4, 2, 1, 24, -3, -5)
  type(hpf_mapping), parameter :: largest = hpf_mapping(2147483647, 1024, 65536, 1, 0, 2147483647)
  type(hpf_mapping), parameter :: largest_stride = hpf_mapping(2147483647, 1024, 64, 4096, 0, 524288)

  call print_array(dense, 7_i64)
  call print_array(every_third_cell, 3_i64)
  call print_array(from_one, 7_i64)
  call print_array(from_minus_three, 2_i64)
  call print_mapping(largest)
  call print_there_and_back(largest, 2147483646_i64)
  call print_mapping(largest_stride)
  call print_there_and_back(largest_stride, 524287_i64)
  call print_refusals()
  call print_names()

contains

  function ownership(m, index) result(owned)
    type(hpf_mapping), intent(in) :: m
    integer(i64), intent(in) :: index
    type(hpf_owned) :: owned
    owned = hpf_ownership(m%cells, m%processors, m%block, m%stride, m%offset, m%size, &
      m%array_lower, m%template_lower, index)
    call expect_same(transfer(owned, [0_c_int32_t]), transfer(hpf_ownership(m, index), [0_c_int32_t]))
  end function ownership

  function going_back(m, processor, address) result(found)
    type(hpf_mapping), intent(in) :: m
    integer(i64), intent(in) :: processor, address
    type(hpf_found) :: found
    found = hpf_going_back(m%cells, m%processors, m%block, m%stride, m%offset, m%size, &
      m%array_lower, m%template_lower, processor, address)
    call expect_same(transfer(found, [0_c_int32_t]), &
      transfer(hpf_going_back(m, processor, address), [0_c_int32_t]))
  end function going_back

  function local_count(m, processor) result(counted)
    type(hpf_mapping), intent(in) :: m
    integer(i64), intent(in) :: processor
    type(hpf_counted) :: counted
    counted = hpf_local_count(m%cells, m%processors, m%block, m%stride, m%offset, m%size, &
      m%array_lower, m%template_lower, processor)
    call expect_same(transfer(counted, [0_c_int32_t]), transfer(hpf_local_count(m, processor), [0_c_int32_t]))
  end function local_count

  include 'same.inc'

  subroutine print_mapping(m)
    type(hpf_mapping), intent(in) :: m
    print '(8(a, i0))', 'T ', m%cells, ', p ', m%processors, ', k ', m%block, ', a ', m%stride, &
      ', b ', m%offset, ', n ', m%size, ', La ', m%array_lower, ', Lt ', m%template_lower
  end subroutine print_mapping

  subroutine print_array(m, every)
    type(hpf_mapping), intent(in) :: m
    integer(i64), intent(in) :: every
    integer(i64) :: index
    call print_mapping(m)
    call print_addresses(m, every)
    call print_counts(m)
    do index = m%array_lower, m%array_lower + m%size - 1, 10
      call print_there_and_back(m, index)
    end do
    call print_there_and_back(m, m%array_lower + m%size - 1)
  end subroutine print_array

  ! The addresses of every so many elements, processor by processor.
  subroutine print_addresses(m, every)
    type(hpf_mapping), intent(in) :: m
    integer(i64), intent(in) :: every
    integer(i64) :: processor, index
    type(hpf_owned) :: owned
    do processor = 0, m%processors - 1
      write (*, '(a, i0, a)', advance='no') 'addresses on ', processor, ':'
      do index = m%array_lower, m%array_lower + m%size - 1, every
        owned = ownership(m, index)
        if (owned%refusal == hpf_accepted .and. owned%processor == processor) then
          write (*, '(1x, i0)', advance='no') owned%address
        end if
      end do
      write (*, '()')
    end do
  end subroutine print_addresses

  subroutine print_counts(m)
    type(hpf_mapping), intent(in) :: m
    integer(i64) :: processor
    type(hpf_counted) :: counted
    write (*, '(a)', advance='no') 'elements:'
    do processor = 0, m%processors - 1
      counted = local_count(m, processor)
      write (*, '(1x, i0)', advance='no') counted%elements
    end do
    write (*, '()')
  end subroutine print_counts

  ! One line for an element there and back.
  subroutine print_there_and_back(m, index)
    type(hpf_mapping), intent(in) :: m
    integer(i64), intent(in) :: index
    type(hpf_owned) :: owned
    type(hpf_found) :: found
    owned = ownership(m, index)
    found = going_back(m, int(owned%processor, i64), int(owned%address, i64))
    print '(4(a, i0))', 'element ', index, ': processor ', owned%processor, &
      ', address ', owned%address, ', back ', found%index
  end subroutine print_there_and_back

  subroutine print_refusals()
    integer(i64), parameter :: least = -huge(0_i64) - 1, past = 2147483648_i64
    call print_owned('no cells', ownership(hpf_mapping(0, 3, 4, 1, 0, 96), 7_i64))
    call print_owned('1025 processors', ownership(hpf_mapping(96, 1025, 4, 1, 0, 96), 7_i64))
    call print_owned('block of 65537', ownership(hpf_mapping(96, 3, 65537, 1, 0, 96), 7_i64))
    call print_owned('stride of 4097', ownership(hpf_mapping(96, 3, 4, 4097, 0, 1), 0_i64))
    call print_owned('offset -2147483648', ownership(hpf_mapping(96, 3, 4, 1, -past, 96), 7_i64))
    call print_owned('-1 elements', ownership(hpf_mapping(96, 3, 4, 1, 0, -1, past), 7_i64))
    call print_owned('lower bound 2147483648', ownership(hpf_mapping(96, 3, 4, 1, 0, 0, past), 7_i64))
    call print_owned('last index 2147483648', ownership(hpf_mapping(96, 3, 4, 1, 0, 2, past - 1), 7_i64))
    call print_owned('last declared cell 2147483648', &
      ownership(hpf_mapping(96, 3, 4, 1, 0, 0, template_lower=past - 95), 7_i64))
    call print_owned('offset -1', ownership(hpf_mapping(96, 3, 4, 1, -1, 96), 7_i64))
    call print_owned('97 elements', ownership(hpf_mapping(96, 3, 4, 1, 0, 97), 7_i64))
    call print_owned('index 96', ownership(dense, 96_i64))
    call print_owned('index 0 of 1 to 100', ownership(from_one, 0_i64))
    call print_found('processor 3', going_back(dense, 3_i64, 0_i64))
    call print_found('address 32', going_back(dense, 0_i64, 32_i64))
    call print_counted('processor -1', local_count(dense, -1_i64))
    call print_counted('all at fault', &
      local_count(hpf_mapping(least, least, least, least, least, least, least, least), least))
  end subroutine print_refusals

  subroutine print_owned(fault, owned)
    character(*), intent(in) :: fault
    type(hpf_owned), intent(in) :: owned
    print '(2a, 2(i0, 1x), i0)', fault, ': ', owned%refusal, owned%processor, owned%address
  end subroutine print_owned

  subroutine print_found(fault, found)
    character(*), intent(in) :: fault
    type(hpf_found), intent(in) :: found
    print '(2a, i0, 1x, i0)', fault, ': ', found%refusal, found%index
  end subroutine print_found

  subroutine print_counted(fault, counted)
    character(*), intent(in) :: fault
    type(hpf_counted), intent(in) :: counted
    print '(2a, i0, 1x, i0)', fault, ': ', counted%refusal, counted%elements
  end subroutine print_counted

  ! Each refusal by its name.
  subroutine print_names()
    call print_name('accepted', hpf_accepted)
    call print_name('cells', hpf_refused_cells)
    call print_name('processors', hpf_refused_processors)
    call print_name('block', hpf_refused_block)
    call print_name('alignment', hpf_refused_alignment)
    call print_name('size', hpf_refused_size)
    call print_name('bounds', hpf_refused_bounds)
    call print_name('processor number', hpf_refused_processor_number)
    call print_name('element', hpf_refused_element)
  end subroutine print_names

  subroutine print_name(name, number)
    character(*), intent(in) :: name
    integer(c_int32_t), intent(in) :: number
    print '(a, 1x, i0)', name, number
  end subroutine print_name

end program mapping
