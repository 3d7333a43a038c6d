! The version's numbers and its string are the same; which they are, the installation's test compares.
program version
  use hpfaddr
  implicit none
  character(len=64) :: numbers
  write (numbers, '(i0, a, i0, a, i0)') hpfaddr_version_major, '.', hpfaddr_version_minor, '.', hpfaddr_version_patch
  print '(a)', trim(merge('numbers and string agree ', 'numbers and string differ', numbers == hpfaddr_version_string))
end program version
