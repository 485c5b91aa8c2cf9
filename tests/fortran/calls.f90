! Every procedure of the Fortran module on one table: calls FILE P [W [EXTENT NUMBER..]] prints the listing from the calls that give numbers, what
! else they give, and the ground of each call, in lines that tests/fortran.sh knows from elsewhere. The numbers are a plan by hand, an array with
! that first extent.
program calls
  use, intrinsic :: iso_c_binding
  use vempaldi
  implicit none

  integer(c_int8_t), allocatable :: table(:)
  integer(c_int32_t) :: processors
  ! Where no W is given, or no plan, it is not allocated, and so absent in every call.
  integer(c_int32_t), allocatable :: line, plan(:, :)
  integer(c_int64_t) :: answer(4)
  character(4096) :: word
  integer :: unit, length

  call get_command_argument(1, word)
  open (newunit=unit, file=trim(word), access='stream', form='unformatted', status='old', action='read')
  inquire (unit=unit, size=length)
  allocate (table(length))
  read (unit) table
  call get_command_argument(2, word)
  read (word, *) processors
  if (command_argument_count() >= 3) then
    call get_command_argument(3, word)
    allocate (line)
    read (word, *) line
  end if
  if (command_argument_count() >= 4) call read_plan()

  print '(a,i0)', 'version ', vempaldi_version()
  call vempaldi_check(table, answer)
  call say('check')
  call tell_facts()
  call tell_numbers()
  call tell_blocks()
  call tell_ranges()
  call tell_listing()
  call tell_joined()
  call tell_runs()

contains

  ! A number of more than 31 bits is read by its bits, which are those of a negative one here.
  subroutine read_plan()
    integer(c_int64_t) :: value
    integer(c_int32_t), allocatable :: numbers(:)
    integer :: at, extent
    allocate (numbers(command_argument_count() - 4))
    call get_command_argument(4, word)
    read (word, *) extent
    do at = 1, size(numbers)
      call get_command_argument(4 + at, word)
      read (word, *) value
      if (value > huge(numbers)) value = value - 4294967296_c_int64_t
      numbers(at) = int(value, c_int32_t)
    end do
    plan = reshape(numbers, [extent, size(numbers) / extent])
  end subroutine

  subroutine say(what)
    character(*), intent(in) :: what
    print '(a,4(1x,i0))', 'answer '//what, answer
  end subroutine

  subroutine tell_facts()
    integer(c_int32_t), allocatable :: arrays(:, :), loops(:, :)
    integer(c_int32_t) :: elements
    integer :: n
    elements = -1
    call vempaldi_facts(table, arrays, loops, elements, answer)
    call say('facts')
    do n = 1, size(arrays, 2)
      print '(a,3(1x,i0))', 'array', n - 1, arrays(:, n)
    end do
    do n = 1, size(loops, 2)
      print '(a,3(1x,i0))', 'bounds', n - 1, loops(:, n)
    end do
    print '(a,1x,i0)', 'elements', elements
  end subroutine

  ! Where a call is refused, what it would have given stays -1.
  subroutine tell_numbers()
    integer(c_int32_t), allocatable :: amounts(:, :)
    integer(c_int32_t) :: threshold, before, after
    integer :: k
    call vempaldi_shifts_and_peels(table, amounts, answer)
    call say('amounts')
    do k = 1, size(amounts, 2)
      print '(a,3(1x,i0))', 'loop', k - 1, amounts(:, k)
    end do
    threshold = -1
    call vempaldi_threshold(table, threshold, answer)
    call say('threshold')
    print '(a,1x,i0)', 'threshold', threshold
    threshold = -1
    call vempaldi_check_plan(table, processors, threshold, answer, line=line, plan=plan)
    call say('check plan')
    print '(a,1x,i0)', 'plan-threshold', threshold
    before = -1
    after = -1
    call vempaldi_sweeps(table, before, after, answer)
    call say('sweeps')
    print '(a,2(1x,i0))', 'sweeps', before, after
  end subroutine

  subroutine tell_blocks()
    integer(c_int32_t), allocatable :: blocks(:, :)
    integer :: b
    if (allocated(plan)) then
      call vempaldi_blocks(table, processors, blocks, answer, line, plan)
    else if (allocated(line)) then
      call vempaldi_blocks(table, processors, blocks, answer, line)
    else
      ! As callers have it who know of no line and no plan.
      call vempaldi_blocks(table, processors, blocks, answer)
    end if
    call say('blocks')
    do b = 1, size(blocks, 2)
      print '(a,3(1x,i0))', 'block', b - 1, blocks(:, b)
    end do
  end subroutine

  ! The ranges, and every iteration of the lists. The processor behind the last one is refused.
  subroutine tell_ranges()
    integer(c_int32_t), allocatable :: fused(:, :), peeled(:, :)
    integer(c_int32_t) :: b
    do b = 0, processors
      call vempaldi_fused_ranges(table, processors, b, fused, answer, line=line, plan=plan)
      call say('fused ranges')
      call vempaldi_peeled_ranges(table, processors, b, peeled, answer, line=line, plan=plan)
      call say('peeled ranges')
      call tell_parts('fused', b, fused)
      call tell_parts('peeled', b, peeled)
      call vempaldi_fused_list(table, processors, b, fused, answer, line=line, plan=plan)
      call say('fused list')
      call vempaldi_peeled_list(table, processors, b, peeled, answer, line=line, plan=plan)
      call say('peeled list')
      call tell_list('fused', b, fused)
      call tell_list('peeled', b, peeled)
    end do
  end subroutine

  subroutine tell_parts(kind, b, ranges)
    character(*), intent(in) :: kind
    integer(c_int32_t), intent(in) :: b, ranges(:, :)
    integer :: k
    do k = 1, size(ranges, 2)
      if (ranges(1, k) < ranges(2, k)) print '(a,4(1x,i0))', kind, b, k - 1, ranges(1, k), ranges(2, k) - 1
      if (ranges(1, k) >= ranges(2, k) .and. any(ranges(:, k) /= 0)) print '(a)', 'an empty range that is not 0 to 0'
    end do
  end subroutine

  subroutine tell_list(kind, b, list)
    character(*), intent(in) :: kind
    integer(c_int32_t), intent(in) :: b, list(:, :)
    integer :: n
    do n = 1, size(list, 2)
      print '(2a,3(1x,i0))', kind, '-iteration', b, list(:, n)
    end do
  end subroutine

  subroutine tell_listing()
    character(:), allocatable :: text
    call vempaldi_listing(table, processors, text, answer, line=line, plan=plan)
    call say('listing')
    print '(a,1x,i0)', 'listing-bytes', len(text)
  end subroutine

  subroutine tell_joined()
    integer(c_int8_t), allocatable :: joined(:)
    call vempaldi_join(table, table, joined, answer)
    call say('join')
    print '(a,1x,i0)', 'joined-bytes', size(joined)
  end subroutine

  ! Steps of every processor in turn until nobody performs anything, a run and a plain run: where they are not refused, all leave one memory.
  subroutine tell_runs()
    integer(c_int32_t), allocatable :: arrays(:, :), loops(:, :)
    real(c_double), allocatable :: stepped(:), plain(:), other(:)
    integer(c_int32_t) :: elements
    integer(c_int64_t) :: idle
    integer :: i
    elements = 0
    call vempaldi_facts(table, arrays, loops, elements, answer)
    stepped = [(real(i, c_double) / 3, i = 1, elements)]
    plain = stepped
    other = stepped
    call vempaldi_plain_run(table, plain, answer)
    call say('plain run')
    call vempaldi_run(table, processors, [integer(c_int8_t) :: 0, 0, 127], other, idle, answer, line=line, plan=plan)
    call say('run')
    print '(a,1x,i0)', 'idle', idle
    call step_all(stepped)
    print '(a,2(1x,l1))', 'alike', alike(plain, other), alike(plain, stepped)
    other = [plain, 0.0_c_double]
    call vempaldi_plain_run(table, other, answer)
    call say('longer memory')
  end subroutine

  pure function alike(one, other)
    real(c_double), intent(in) :: one(:), other(:)
    logical :: alike
    alike = all(transfer(one, [0_c_int64_t]) == transfer(other, [0_c_int64_t]))
  end function

  subroutine step_all(memory)
    real(c_double), contiguous, intent(inout) :: memory(:)
    integer(c_int32_t) :: counts(vempaldi_most_processors), report(3), b
    integer :: seen(0:3), before
    counts = 0
    seen = 0
    do
      before = seen(vempaldi_iteration)
      do b = 0, processors
        report = vempaldi_no_report
        call vempaldi_step(table, processors, b, counts, memory, report, answer, line=line, plan=plan)
        seen(report(1)) = seen(report(1)) + 1
      end do
      if (seen(vempaldi_iteration) == before) exit
    end do
    call say('step')
    print '(a,2(1x,i0))', 'performed', seen(vempaldi_iteration), sum(counts)
    print '(a,1x,l1)', 'finished', seen(vempaldi_finished) >= processors
  end subroutine

end program
