! hpfaddr_between: the transfers of assignments in which a side, or each, is dealt by a
! list of sizes.
module hpfaddr_between
  use, intrinsic :: iso_c_binding, only: c_int32_t, c_int64_t, c_size_t, c_ptr, c_null_ptr
  use hpfaddr_numbers
  use hpfaddr_gen_block_numbers
  use hpfaddr_gen_block
  implicit none
  private

  public :: plain_transfers_from_block, plain_transfers_to_block, plain_transfers_of_sizes
  public :: typed_transfers_from_block, typed_transfers_to_block, typed_transfers_of_sizes

  ! A side of an assignment, as C takes it. Of block and sizes it has what concerns its
  ! dealing, which is cyclic if it is 0.
  type :: side
    integer(c_int64_t) :: cells, processors, dealing, block
    type(c_ptr) :: sizes
    integer(c_size_t) :: sizes_bytes
    integer(c_int64_t) :: stride, offset, size, array_lower, template_lower, lower, upper, step
  end type side

  integer(c_int64_t), parameter :: cyclic = 0, by_sizes = 1

  interface side_of
    procedure cyclic_side, gen_block_side
  end interface side_of

  interface
    function c_transfers_between(left_cells, left_processors, left_dealing, left_block, left_sizes, &
        left_sizes_bytes, left_stride, left_offset, left_size, left_array_lower, left_template_lower, &
        left_lower, left_upper, left_step, &
        right_cells, right_processors, right_dealing, right_block, right_sizes, &
        right_sizes_bytes, right_stride, right_offset, right_size, right_array_lower, right_template_lower, &
        right_lower, right_upper, right_step, &
        sender, receiver, positions, positions_entries, sent, sent_entries, received, received_entries) &
        result(transferred) bind(c, name='hpf_transfers_between')
      import :: c_int32_t, c_int64_t, c_size_t, c_ptr, hpf_transferred
      integer(c_int64_t), value :: left_cells, left_processors, left_dealing, left_block
      integer(c_int64_t), value :: left_stride, left_offset, left_size, left_array_lower, left_template_lower
      integer(c_int64_t), value :: left_lower, left_upper, left_step
      integer(c_int64_t), value :: right_cells, right_processors, right_dealing, right_block
      integer(c_int64_t), value :: right_stride, right_offset, right_size, right_array_lower, right_template_lower
      integer(c_int64_t), value :: right_lower, right_upper, right_step
      type(c_ptr), value :: left_sizes, right_sizes
      integer(c_size_t), value :: left_sizes_bytes, right_sizes_bytes
      integer(c_int64_t), value :: sender, receiver
      integer(c_int32_t), intent(inout) :: positions(*), sent(*), received(*)
      integer(c_size_t), value :: positions_entries, sent_entries, received_entries
      type(hpf_transferred) :: transferred
    end function c_transfers_between
  end interface

contains

  function cyclic_side(m, t) result(s)
    type(hpf_mapping), intent(in) :: m
    type(hpf_triplet), intent(in) :: t
    type(side) :: s
    s = side(m%cells, m%processors, cyclic, m%block, c_null_ptr, 0, m%stride, m%offset, m%size, &
      m%array_lower, m%template_lower, t%lower, t%upper, t%stride)
  end function cyclic_side

  function gen_block_side(m, t) result(s)
    type(hpf_gen_block_mapping), intent(in), target :: m
    type(hpf_triplet), intent(in) :: t
    type(side) :: s
    s = side(m%cells, m%processors, by_sizes, 0, start_of(m%sizes), bytes_of(m%sizes), &
      m%stride, m%offset, m%size, m%array_lower, m%template_lower, t%lower, t%upper, t%stride)
  end function gen_block_side

  function between(l, r, sender, receiver, positions, positions_entries, sent, sent_entries, &
      received, received_entries) result(transferred)
    type(side), intent(in) :: l, r
    integer(c_int64_t), intent(in) :: sender, receiver
    integer(c_int32_t), intent(inout) :: positions(*), sent(*), received(*)
    integer(c_size_t), intent(in) :: positions_entries, sent_entries, received_entries
    type(hpf_transferred) :: transferred
    transferred = c_transfers_between( &
      l%cells, l%processors, l%dealing, l%block, l%sizes, l%sizes_bytes, l%stride, l%offset, l%size, &
      l%array_lower, l%template_lower, l%lower, l%upper, l%step, &
      r%cells, r%processors, r%dealing, r%block, r%sizes, r%sizes_bytes, r%stride, r%offset, r%size, &
      r%array_lower, r%template_lower, r%lower, r%upper, r%step, &
      sender, receiver, positions, positions_entries, sent, sent_entries, received, received_entries)
  end function between

  ! From a right side with a block to a left one with sizes.
  function plain_transfers_from_block(left_cells, left_processors, left_sizes, left_stride, left_offset, left_size, &
      left_array_lower, left_template_lower, left_lower, left_upper, left_step, &
      right_cells, right_processors, right_block, right_stride, right_offset, right_size, &
      right_array_lower, right_template_lower, right_lower, right_upper, right_step, &
      sender, receiver, positions, positions_entries, sent, sent_entries, received, received_entries) &
      result(transferred)
    integer(c_int64_t), intent(in) :: left_cells, left_processors, left_stride, left_offset, left_size
    integer(c_int64_t), intent(in) :: left_array_lower, left_template_lower, left_lower, left_upper, left_step
    integer(c_int32_t), intent(in), target, contiguous :: left_sizes(:)
    integer(c_int64_t), intent(in) :: right_cells, right_processors, right_block, right_stride, right_offset, right_size
    integer(c_int64_t), intent(in) :: right_array_lower, right_template_lower, right_lower, right_upper, right_step
    integer(c_int64_t), intent(in) :: sender, receiver
    integer(c_int32_t), intent(inout) :: positions(*), sent(*), received(*)
    integer(c_size_t), intent(in) :: positions_entries, sent_entries, received_entries
    type(hpf_transferred) :: transferred
    transferred = between( &
      side(left_cells, left_processors, by_sizes, 0, start_of(left_sizes), bytes_of(left_sizes), &
      left_stride, left_offset, left_size, left_array_lower, left_template_lower, &
      left_lower, left_upper, left_step), &
      side(right_cells, right_processors, cyclic, right_block, c_null_ptr, 0, right_stride, right_offset, right_size, &
      right_array_lower, right_template_lower, right_lower, right_upper, right_step), &
      sender, receiver, positions, positions_entries, sent, sent_entries, received, received_entries)
  end function plain_transfers_from_block

  function plain_transfers_to_block(left_cells, left_processors, left_block, left_stride, left_offset, left_size, &
      left_array_lower, left_template_lower, left_lower, left_upper, left_step, &
      right_cells, right_processors, right_sizes, right_stride, right_offset, right_size, &
      right_array_lower, right_template_lower, right_lower, right_upper, right_step, &
      sender, receiver, positions, positions_entries, sent, sent_entries, received, received_entries) &
      result(transferred)
    integer(c_int64_t), intent(in) :: left_cells, left_processors, left_block, left_stride, left_offset, left_size
    integer(c_int64_t), intent(in) :: left_array_lower, left_template_lower, left_lower, left_upper, left_step
    integer(c_int64_t), intent(in) :: right_cells, right_processors, right_stride, right_offset, right_size
    integer(c_int64_t), intent(in) :: right_array_lower, right_template_lower, right_lower, right_upper, right_step
    integer(c_int32_t), intent(in), target, contiguous :: right_sizes(:)
    integer(c_int64_t), intent(in) :: sender, receiver
    integer(c_int32_t), intent(inout) :: positions(*), sent(*), received(*)
    integer(c_size_t), intent(in) :: positions_entries, sent_entries, received_entries
    type(hpf_transferred) :: transferred
    transferred = between( &
      side(left_cells, left_processors, cyclic, left_block, c_null_ptr, 0, left_stride, left_offset, left_size, &
      left_array_lower, left_template_lower, left_lower, left_upper, left_step), &
      side(right_cells, right_processors, by_sizes, 0, start_of(right_sizes), bytes_of(right_sizes), &
      right_stride, right_offset, right_size, right_array_lower, right_template_lower, &
      right_lower, right_upper, right_step), &
      sender, receiver, positions, positions_entries, sent, sent_entries, received, received_entries)
  end function plain_transfers_to_block

  function plain_transfers_of_sizes(left_cells, left_processors, left_sizes, left_stride, left_offset, left_size, &
      left_array_lower, left_template_lower, left_lower, left_upper, left_step, &
      right_cells, right_processors, right_sizes, right_stride, right_offset, right_size, &
      right_array_lower, right_template_lower, right_lower, right_upper, right_step, &
      sender, receiver, positions, positions_entries, sent, sent_entries, received, received_entries) &
      result(transferred)
    integer(c_int64_t), intent(in) :: left_cells, left_processors, left_stride, left_offset, left_size
    integer(c_int64_t), intent(in) :: left_array_lower, left_template_lower, left_lower, left_upper, left_step
    integer(c_int32_t), intent(in), target, contiguous :: left_sizes(:)
    integer(c_int64_t), intent(in) :: right_cells, right_processors, right_stride, right_offset, right_size
    integer(c_int64_t), intent(in) :: right_array_lower, right_template_lower, right_lower, right_upper, right_step
    integer(c_int32_t), intent(in), target, contiguous :: right_sizes(:)
    integer(c_int64_t), intent(in) :: sender, receiver
    integer(c_int32_t), intent(inout) :: positions(*), sent(*), received(*)
    integer(c_size_t), intent(in) :: positions_entries, sent_entries, received_entries
    type(hpf_transferred) :: transferred
    transferred = between( &
      side(left_cells, left_processors, by_sizes, 0, start_of(left_sizes), bytes_of(left_sizes), &
      left_stride, left_offset, left_size, left_array_lower, left_template_lower, &
      left_lower, left_upper, left_step), &
      side(right_cells, right_processors, by_sizes, 0, start_of(right_sizes), bytes_of(right_sizes), &
      right_stride, right_offset, right_size, right_array_lower, right_template_lower, &
      right_lower, right_upper, right_step), &
      sender, receiver, positions, positions_entries, sent, sent_entries, received, received_entries)
  end function plain_transfers_of_sizes

  function typed_transfers_from_block(left, left_section, right, right_section, sender, receiver, &
      positions, sent, received) result(transferred)
    type(hpf_gen_block_mapping), intent(in), target :: left
    type(hpf_mapping), intent(in) :: right
    type(hpf_triplet), intent(in) :: left_section, right_section
    integer(c_int64_t), intent(in) :: sender, receiver
    integer(c_int32_t), intent(inout), contiguous :: positions(:), sent(:), received(:)
    type(hpf_transferred) :: transferred
    transferred = between(side_of(left, left_section), side_of(right, right_section), sender, receiver, &
      positions, size(positions, kind=c_size_t), sent, size(sent, kind=c_size_t), &
      received, size(received, kind=c_size_t))
  end function typed_transfers_from_block

  function typed_transfers_to_block(left, left_section, right, right_section, sender, receiver, &
      positions, sent, received) result(transferred)
    type(hpf_mapping), intent(in) :: left
    type(hpf_gen_block_mapping), intent(in), target :: right
    type(hpf_triplet), intent(in) :: left_section, right_section
    integer(c_int64_t), intent(in) :: sender, receiver
    integer(c_int32_t), intent(inout), contiguous :: positions(:), sent(:), received(:)
    type(hpf_transferred) :: transferred
    transferred = between(side_of(left, left_section), side_of(right, right_section), sender, receiver, &
      positions, size(positions, kind=c_size_t), sent, size(sent, kind=c_size_t), &
      received, size(received, kind=c_size_t))
  end function typed_transfers_to_block

  function typed_transfers_of_sizes(left, left_section, right, right_section, sender, receiver, &
      positions, sent, received) result(transferred)
    type(hpf_gen_block_mapping), intent(in), target :: left, right
    type(hpf_triplet), intent(in) :: left_section, right_section
    integer(c_int64_t), intent(in) :: sender, receiver
    integer(c_int32_t), intent(inout), contiguous :: positions(:), sent(:), received(:)
    type(hpf_transferred) :: transferred
    transferred = between(side_of(left, left_section), side_of(right, right_section), sender, receiver, &
      positions, size(positions, kind=c_size_t), sent, size(sent, kind=c_size_t), &
      received, size(received, kind=c_size_t))
  end function typed_transfers_of_sizes

end module hpfaddr_between
