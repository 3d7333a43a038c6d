! hpfaddr_gen_block_numbers: the library's C functions on a template that is dealt by a
! list of sizes. Each call takes the sizes as an array, where those of hpfaddr_numbers
! take a block; a contiguous one is not copied first.
module hpfaddr_gen_block_numbers
  use, intrinsic :: iso_c_binding, only: c_int32_t, c_int64_t, c_size_t, c_double, c_ptr, c_loc, c_null_ptr
  use hpfaddr_numbers
  implicit none
  public

  interface

    pure function c_ownership(cells, processors, sizes, sizes_bytes, stride, offset, size, &
        array_lower, template_lower, index) result(owned) bind(c, name='hpf_gen_block_ownership')
      import :: c_int64_t, c_size_t, c_ptr, hpf_owned
      integer(c_int64_t), value :: cells, processors, stride, offset, size, array_lower, template_lower
      type(c_ptr), value :: sizes
      integer(c_size_t), value :: sizes_bytes
      integer(c_int64_t), value :: index
      type(hpf_owned) :: owned
    end function c_ownership

    pure function c_going_back(cells, processors, sizes, sizes_bytes, stride, offset, size, &
        array_lower, template_lower, processor, address) result(found) bind(c, name='hpf_gen_block_going_back')
      import :: c_int64_t, c_size_t, c_ptr, hpf_found
      integer(c_int64_t), value :: cells, processors, stride, offset, size, array_lower, template_lower
      type(c_ptr), value :: sizes
      integer(c_size_t), value :: sizes_bytes
      integer(c_int64_t), value :: processor, address
      type(hpf_found) :: found
    end function c_going_back

    pure function c_local_count(cells, processors, sizes, sizes_bytes, stride, offset, size, &
        array_lower, template_lower, processor) result(counted) bind(c, name='hpf_gen_block_local_count')
      import :: c_int64_t, c_size_t, c_ptr, hpf_counted
      integer(c_int64_t), value :: cells, processors, stride, offset, size, array_lower, template_lower
      type(c_ptr), value :: sizes
      integer(c_size_t), value :: sizes_bytes
      integer(c_int64_t), value :: processor
      type(hpf_counted) :: counted
    end function c_local_count

    pure function c_section_steps(cells, processors, sizes, sizes_bytes, stride, offset, size, &
        array_lower, template_lower, lower, upper, step) result(steps) bind(c, name='hpf_gen_block_section_steps')
      import :: c_int64_t, c_size_t, c_ptr, hpf_steps
      integer(c_int64_t), value :: cells, processors, stride, offset, size, array_lower, template_lower
      type(c_ptr), value :: sizes
      integer(c_size_t), value :: sizes_bytes
      integer(c_int64_t), value :: lower, upper, step
      type(hpf_steps) :: steps
    end function c_section_steps

    pure function c_first_place(cells, processors, sizes, sizes_bytes, stride, offset, size, array_lower, &
        template_lower, lower, upper, step, processor) result(placed) bind(c, name='hpf_gen_block_first_place')
      import :: c_int64_t, c_size_t, c_ptr, hpf_placed
      integer(c_int64_t), value :: cells, processors, stride, offset, size, array_lower, template_lower
      type(c_ptr), value :: sizes
      integer(c_size_t), value :: sizes_bytes
      integer(c_int64_t), value :: lower, upper, step, processor
      type(hpf_placed) :: placed
    end function c_first_place

    function c_fill(cells, processors, sizes, sizes_bytes, stride, offset, size, array_lower, template_lower, &
        lower, upper, step, processor, place, quota, list, list_bytes) result(filled) bind(c, name='hpf_gen_block_fill')
      import :: c_int64_t, c_size_t, c_ptr, hpf_filled
      integer(c_int64_t), value :: cells, processors, stride, offset, size, array_lower, template_lower
      type(c_ptr), value :: sizes, list
      integer(c_size_t), value :: sizes_bytes, list_bytes
      integer(c_int64_t), value :: lower, upper, step, processor, place, quota
      type(hpf_filled) :: filled
    end function c_fill

    function c_checkpoint(cells, processors, sizes, sizes_bytes, stride, offset, size, array_lower, template_lower, &
        storage, storage_words, saved, saved_words) result(copied) bind(c, name='hpf_gen_block_checkpoint')
      import :: c_int64_t, c_size_t, c_ptr, hpf_copied
      integer(c_int64_t), value :: cells, processors, stride, offset, size, array_lower, template_lower
      type(c_ptr), value :: sizes, storage, saved
      integer(c_size_t), value :: sizes_bytes, storage_words, saved_words
      type(hpf_copied) :: copied
    end function c_checkpoint

    function c_restore(cells, processors, sizes, sizes_bytes, stride, offset, size, array_lower, template_lower, &
        saved, saved_words, storage, storage_words) result(copied) bind(c, name='hpf_gen_block_restore')
      import :: c_int64_t, c_size_t, c_ptr, hpf_copied
      integer(c_int64_t), value :: cells, processors, stride, offset, size, array_lower, template_lower
      type(c_ptr), value :: sizes, saved, storage
      integer(c_size_t), value :: sizes_bytes, saved_words, storage_words
      type(hpf_copied) :: copied
    end function c_restore

  end interface

  interface start_of
    procedure start_of_sizes
  end interface start_of

contains

  ! A list of no sizes, or one that was never allocated, begins nowhere.
  pure function start_of_sizes(sizes) result(start)
    integer(c_int32_t), intent(in), optional, target, contiguous :: sizes(:)
    type(c_ptr) :: start
    start = c_null_ptr
    if (.not. present(sizes)) return
    if (size(sizes, kind=c_size_t) > 0) start = c_loc(sizes)
  end function start_of_sizes

  pure function bytes_of(sizes) result(bytes)
    integer(c_int32_t), intent(in), optional :: sizes(:)
    integer(c_size_t) :: bytes
    bytes = 0
    if (present(sizes)) bytes = 4 * size(sizes, kind=c_size_t)
  end function bytes_of

  pure function sizes_ownership(cells, processors, sizes, stride, offset, size, array_lower, template_lower, index) &
      result(owned)
    integer(c_int64_t), intent(in) :: cells, processors, stride, offset, size, array_lower, template_lower
    integer(c_int32_t), intent(in), target, contiguous :: sizes(:)
    integer(c_int64_t), intent(in) :: index
    type(hpf_owned) :: owned
    owned = c_ownership(cells, processors, start_of(sizes), bytes_of(sizes), stride, offset, size, &
      array_lower, template_lower, index)
  end function sizes_ownership

  pure function sizes_going_back(cells, processors, sizes, stride, offset, size, array_lower, template_lower, &
      processor, address) result(found)
    integer(c_int64_t), intent(in) :: cells, processors, stride, offset, size, array_lower, template_lower
    integer(c_int32_t), intent(in), target, contiguous :: sizes(:)
    integer(c_int64_t), intent(in) :: processor, address
    type(hpf_found) :: found
    found = c_going_back(cells, processors, start_of(sizes), bytes_of(sizes), stride, offset, size, &
      array_lower, template_lower, processor, address)
  end function sizes_going_back

  pure function sizes_local_count(cells, processors, sizes, stride, offset, size, array_lower, template_lower, &
      processor) result(counted)
    integer(c_int64_t), intent(in) :: cells, processors, stride, offset, size, array_lower, template_lower
    integer(c_int32_t), intent(in), target, contiguous :: sizes(:)
    integer(c_int64_t), intent(in) :: processor
    type(hpf_counted) :: counted
    counted = c_local_count(cells, processors, start_of(sizes), bytes_of(sizes), stride, offset, size, &
      array_lower, template_lower, processor)
  end function sizes_local_count

  pure function sizes_section_steps(cells, processors, sizes, stride, offset, size, array_lower, template_lower, &
      lower, upper, step) result(steps)
    integer(c_int64_t), intent(in) :: cells, processors, stride, offset, size, array_lower, template_lower
    integer(c_int32_t), intent(in), target, contiguous :: sizes(:)
    integer(c_int64_t), intent(in) :: lower, upper, step
    type(hpf_steps) :: steps
    steps = c_section_steps(cells, processors, start_of(sizes), bytes_of(sizes), stride, offset, size, &
      array_lower, template_lower, lower, upper, step)
  end function sizes_section_steps

  pure function sizes_first_place(cells, processors, sizes, stride, offset, size, array_lower, template_lower, &
      lower, upper, step, processor) result(placed)
    integer(c_int64_t), intent(in) :: cells, processors, stride, offset, size, array_lower, template_lower
    integer(c_int32_t), intent(in), target, contiguous :: sizes(:)
    integer(c_int64_t), intent(in) :: lower, upper, step, processor
    type(hpf_placed) :: placed
    placed = c_first_place(cells, processors, start_of(sizes), bytes_of(sizes), stride, offset, size, &
      array_lower, template_lower, lower, upper, step, processor)
  end function sizes_first_place

  function sizes_fill(cells, processors, sizes, stride, offset, size, array_lower, template_lower, &
      lower, upper, step, processor, place, quota, list, list_bytes) result(filled)
    integer(c_int64_t), intent(in) :: cells, processors, stride, offset, size, array_lower, template_lower
    integer(c_int32_t), intent(in), target, contiguous :: sizes(:)
    integer(c_int64_t), intent(in) :: lower, upper, step, processor, place, quota
    type(c_ptr), intent(in) :: list
    integer(c_size_t), intent(in) :: list_bytes
    type(hpf_filled) :: filled
    filled = c_fill(cells, processors, start_of(sizes), bytes_of(sizes), stride, offset, size, &
      array_lower, template_lower, lower, upper, step, processor, place, quota, list, list_bytes)
  end function sizes_fill

  function sizes_fill_words(cells, processors, sizes, stride, offset, size, array_lower, template_lower, &
      lower, upper, step, processor, place, quota, list) result(filled)
    integer(c_int64_t), intent(in) :: cells, processors, stride, offset, size, array_lower, template_lower
    integer(c_int32_t), intent(in), target, contiguous :: sizes(:)
    integer(c_int64_t), intent(in) :: lower, upper, step, processor, place, quota
    integer(c_int32_t), intent(inout), target, contiguous :: list(:)
    type(hpf_filled) :: filled
    filled = c_fill(cells, processors, start_of(sizes), bytes_of(sizes), stride, offset, size, &
      array_lower, template_lower, lower, upper, step, processor, place, quota, start_of(list), bytes_of(list))
  end function sizes_fill_words

  function sizes_checkpoint(cells, processors, sizes, stride, offset, size, array_lower, template_lower, &
      storage, storage_words, saved, saved_words) result(copied)
    integer(c_int64_t), intent(in) :: cells, processors, stride, offset, size, array_lower, template_lower
    integer(c_int32_t), intent(in), target, contiguous :: sizes(:)
    type(c_ptr), intent(in) :: storage, saved
    integer(c_size_t), intent(in) :: storage_words, saved_words
    type(hpf_copied) :: copied
    copied = c_checkpoint(cells, processors, start_of(sizes), bytes_of(sizes), stride, offset, size, &
      array_lower, template_lower, storage, storage_words, saved, saved_words)
  end function sizes_checkpoint

  function sizes_checkpoint_integers(cells, processors, sizes, stride, offset, size, array_lower, template_lower, &
      storage, saved) result(copied)
    integer(c_int64_t), intent(in) :: cells, processors, stride, offset, size, array_lower, template_lower
    integer(c_int32_t), intent(in), target, contiguous :: sizes(:)
    integer(c_int64_t), intent(in), target, contiguous :: storage(:)
    integer(c_int64_t), intent(inout), target, contiguous :: saved(:)
    type(hpf_copied) :: copied
    copied = c_checkpoint(cells, processors, start_of(sizes), bytes_of(sizes), stride, offset, size, &
      array_lower, template_lower, start_of(storage), ubound(storage, 1, c_size_t), &
      start_of(saved), ubound(saved, 1, c_size_t))
  end function sizes_checkpoint_integers

  function sizes_checkpoint_reals(cells, processors, sizes, stride, offset, size, array_lower, template_lower, &
      storage, saved) result(copied)
    integer(c_int64_t), intent(in) :: cells, processors, stride, offset, size, array_lower, template_lower
    integer(c_int32_t), intent(in), target, contiguous :: sizes(:)
    real(c_double), intent(in), target, contiguous :: storage(:)
    real(c_double), intent(inout), target, contiguous :: saved(:)
    type(hpf_copied) :: copied
    copied = c_checkpoint(cells, processors, start_of(sizes), bytes_of(sizes), stride, offset, size, &
      array_lower, template_lower, start_of(storage), ubound(storage, 1, c_size_t), &
      start_of(saved), ubound(saved, 1, c_size_t))
  end function sizes_checkpoint_reals

  function sizes_restore(cells, processors, sizes, stride, offset, size, array_lower, template_lower, &
      saved, saved_words, storage, storage_words) result(copied)
    integer(c_int64_t), intent(in) :: cells, processors, stride, offset, size, array_lower, template_lower
    integer(c_int32_t), intent(in), target, contiguous :: sizes(:)
    type(c_ptr), intent(in) :: saved, storage
    integer(c_size_t), intent(in) :: saved_words, storage_words
    type(hpf_copied) :: copied
    copied = c_restore(cells, processors, start_of(sizes), bytes_of(sizes), stride, offset, size, &
      array_lower, template_lower, saved, saved_words, storage, storage_words)
  end function sizes_restore

  function sizes_restore_integers(cells, processors, sizes, stride, offset, size, array_lower, template_lower, &
      saved, storage) result(copied)
    integer(c_int64_t), intent(in) :: cells, processors, stride, offset, size, array_lower, template_lower
    integer(c_int32_t), intent(in), target, contiguous :: sizes(:)
    integer(c_int64_t), intent(in), target, contiguous :: saved(:)
    integer(c_int64_t), intent(inout), target, contiguous :: storage(:)
    type(hpf_copied) :: copied
    copied = c_restore(cells, processors, start_of(sizes), bytes_of(sizes), stride, offset, size, &
      array_lower, template_lower, start_of(saved), ubound(saved, 1, c_size_t), &
      start_of(storage), ubound(storage, 1, c_size_t))
  end function sizes_restore_integers

  function sizes_restore_reals(cells, processors, sizes, stride, offset, size, array_lower, template_lower, &
      saved, storage) result(copied)
    integer(c_int64_t), intent(in) :: cells, processors, stride, offset, size, array_lower, template_lower
    integer(c_int32_t), intent(in), target, contiguous :: sizes(:)
    real(c_double), intent(in), target, contiguous :: saved(:)
    real(c_double), intent(inout), target, contiguous :: storage(:)
    type(hpf_copied) :: copied
    copied = c_restore(cells, processors, start_of(sizes), bytes_of(sizes), stride, offset, size, &
      array_lower, template_lower, start_of(saved), ubound(saved, 1, c_size_t), &
      start_of(storage), ubound(storage, 1, c_size_t))
  end function sizes_restore_reals

end module hpfaddr_gen_block_numbers
