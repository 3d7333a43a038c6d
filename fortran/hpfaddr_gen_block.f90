! hpfaddr_gen_block: a mapping with a list of sizes as one thing, and the calls on it.
module hpfaddr_gen_block
  use, intrinsic :: iso_c_binding, only: c_int32_t, c_int64_t, c_size_t, c_double, c_ptr
  use hpfaddr_numbers
  use hpfaddr_gen_block_numbers
  implicit none
  public

  ! A mapping with a list of sizes. Bounds that are left out are 0, as in
  ! hpf_gen_block_mapping(cells=96, processors=3, sizes=[40, 0, 56], stride=1, offset=0, size=96).
  type :: hpf_gen_block_mapping
    integer(c_int64_t) :: cells, processors
    integer(c_int32_t), allocatable :: sizes(:)
    integer(c_int64_t) :: stride, offset, size
    integer(c_int64_t) :: array_lower = 0, template_lower = 0
  end type hpf_gen_block_mapping

contains

  pure function gen_block_ownership(m, index) result(owned)
    type(hpf_gen_block_mapping), intent(in), target :: m
    integer(c_int64_t), intent(in) :: index
    type(hpf_owned) :: owned
    owned = c_ownership(m%cells, m%processors, start_of(m%sizes), bytes_of(m%sizes), m%stride, m%offset, m%size, &
      m%array_lower, m%template_lower, index)
  end function gen_block_ownership

  pure function gen_block_going_back(m, processor, address) result(found)
    type(hpf_gen_block_mapping), intent(in), target :: m
    integer(c_int64_t), intent(in) :: processor, address
    type(hpf_found) :: found
    found = c_going_back(m%cells, m%processors, start_of(m%sizes), bytes_of(m%sizes), m%stride, m%offset, m%size, &
      m%array_lower, m%template_lower, processor, address)
  end function gen_block_going_back

  pure function gen_block_local_count(m, processor) result(counted)
    type(hpf_gen_block_mapping), intent(in), target :: m
    integer(c_int64_t), intent(in) :: processor
    type(hpf_counted) :: counted
    counted = c_local_count(m%cells, m%processors, start_of(m%sizes), bytes_of(m%sizes), m%stride, m%offset, m%size, &
      m%array_lower, m%template_lower, processor)
  end function gen_block_local_count

  pure function gen_block_section_steps(m, t) result(steps)
    type(hpf_gen_block_mapping), intent(in), target :: m
    type(hpf_triplet), intent(in) :: t
    type(hpf_steps) :: steps
    steps = c_section_steps(m%cells, m%processors, start_of(m%sizes), bytes_of(m%sizes), m%stride, m%offset, m%size, &
      m%array_lower, m%template_lower, t%lower, t%upper, t%stride)
  end function gen_block_section_steps

  pure function gen_block_first_place(m, t, processor) result(placed)
    type(hpf_gen_block_mapping), intent(in), target :: m
    type(hpf_triplet), intent(in) :: t
    integer(c_int64_t), intent(in) :: processor
    type(hpf_placed) :: placed
    placed = c_first_place(m%cells, m%processors, start_of(m%sizes), bytes_of(m%sizes), m%stride, m%offset, m%size, &
      m%array_lower, m%template_lower, t%lower, t%upper, t%stride, processor)
  end function gen_block_first_place

  function gen_block_fill(m, t, processor, place, quota, list, list_bytes) result(filled)
    type(hpf_gen_block_mapping), intent(in), target :: m
    type(hpf_triplet), intent(in) :: t
    integer(c_int64_t), intent(in) :: processor, place, quota
    type(c_ptr), intent(in) :: list
    integer(c_size_t), intent(in) :: list_bytes
    type(hpf_filled) :: filled
    filled = c_fill(m%cells, m%processors, start_of(m%sizes), bytes_of(m%sizes), m%stride, m%offset, m%size, &
      m%array_lower, m%template_lower, t%lower, t%upper, t%stride, processor, place, quota, list, list_bytes)
  end function gen_block_fill

  function gen_block_fill_words(m, t, processor, place, quota, list) result(filled)
    type(hpf_gen_block_mapping), intent(in) :: m
    type(hpf_triplet), intent(in) :: t
    integer(c_int64_t), intent(in) :: processor, place, quota
    integer(c_int32_t), intent(inout), target, contiguous :: list(:)
    type(hpf_filled) :: filled
    filled = gen_block_fill(m, t, processor, place, quota, start_of(list), bytes_of(list))
  end function gen_block_fill_words

  function gen_block_checkpoint(m, storage, storage_words, saved, saved_words) result(copied)
    type(hpf_gen_block_mapping), intent(in), target :: m
    type(c_ptr), intent(in) :: storage, saved
    integer(c_size_t), intent(in) :: storage_words, saved_words
    type(hpf_copied) :: copied
    copied = c_checkpoint(m%cells, m%processors, start_of(m%sizes), bytes_of(m%sizes), m%stride, m%offset, m%size, &
      m%array_lower, m%template_lower, storage, storage_words, saved, saved_words)
  end function gen_block_checkpoint

  function gen_block_checkpoint_integers(m, storage, saved) result(copied)
    type(hpf_gen_block_mapping), intent(in) :: m
    integer(c_int64_t), intent(in), target, contiguous :: storage(:)
    integer(c_int64_t), intent(inout), target, contiguous :: saved(:)
    type(hpf_copied) :: copied
    copied = gen_block_checkpoint(m, start_of(storage), size(storage, kind=c_size_t), &
      start_of(saved), size(saved, kind=c_size_t))
  end function gen_block_checkpoint_integers

  function gen_block_checkpoint_reals(m, storage, saved) result(copied)
    type(hpf_gen_block_mapping), intent(in) :: m
    real(c_double), intent(in), target, contiguous :: storage(:)
    real(c_double), intent(inout), target, contiguous :: saved(:)
    type(hpf_copied) :: copied
    copied = gen_block_checkpoint(m, start_of(storage), size(storage, kind=c_size_t), &
      start_of(saved), size(saved, kind=c_size_t))
  end function gen_block_checkpoint_reals

  function gen_block_restore(m, saved, saved_words, storage, storage_words) result(copied)
    type(hpf_gen_block_mapping), intent(in), target :: m
    type(c_ptr), intent(in) :: saved, storage
    integer(c_size_t), intent(in) :: saved_words, storage_words
    type(hpf_copied) :: copied
    copied = c_restore(m%cells, m%processors, start_of(m%sizes), bytes_of(m%sizes), m%stride, m%offset, m%size, &
      m%array_lower, m%template_lower, saved, saved_words, storage, storage_words)
  end function gen_block_restore

  function gen_block_restore_integers(m, saved, storage) result(copied)
    type(hpf_gen_block_mapping), intent(in) :: m
    integer(c_int64_t), intent(in), target, contiguous :: saved(:)
    integer(c_int64_t), intent(inout), target, contiguous :: storage(:)
    type(hpf_copied) :: copied
    copied = gen_block_restore(m, start_of(saved), size(saved, kind=c_size_t), &
      start_of(storage), size(storage, kind=c_size_t))
  end function gen_block_restore_integers

  function gen_block_restore_reals(m, saved, storage) result(copied)
    type(hpf_gen_block_mapping), intent(in) :: m
    real(c_double), intent(in), target, contiguous :: saved(:)
    real(c_double), intent(inout), target, contiguous :: storage(:)
    type(hpf_copied) :: copied
    copied = gen_block_restore(m, start_of(saved), size(saved, kind=c_size_t), &
      start_of(storage), size(storage, kind=c_size_t))
  end function gen_block_restore_reals

end module hpfaddr_gen_block
