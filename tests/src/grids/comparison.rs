//! Calls the library on grids and compares its answers with the expected ones.

use crate::comparison::{Comparison, Outcome};
use crate::grids::answers;
use crate::grids::library::{Fill, Grid, GridFound, GridSteps, DIMENSIONS};
use crate::library::Owned;
use crate::memory::Memory;
use crate::section_comparison::Filling;
use crate::section_library::Placed;

/// What lies around a list, and up to how many bytes are left over at its end.
const GUARD: usize = 9;
const LEFT_OVER: usize = 3;

impl Comparison {
    pub fn grid_ownership(
        &mut self,
        grid: &Grid,
        indices: [i64; DIMENSIONS],
        expected: Owned,
    ) -> Outcome {
        let answer = grid.ownership(indices);
        self.same(answer, expected, || {
            format!("ownership of element {indices:?}, {grid:?}")
        })
    }

    pub fn grid_going_back(
        &mut self,
        grid: &Grid,
        processor: i64,
        address: i64,
        expected: GridFound,
    ) -> Outcome {
        let answer = grid.going_back(processor, address);
        self.same(answer, expected, || {
            format!("going back from processor {processor}, address {address}, {grid:?}")
        })
    }

    pub fn grid_steps(&mut self, grid: &Grid, expected: GridSteps) -> Outcome {
        let answer = grid.section_steps();
        self.same(answer, expected, || format!("steps of {grid:?}"))
    }

    pub fn grid_first_place(&mut self, grid: &Grid, processor: i64, expected: Placed) -> Outcome {
        let answer = grid.first_place(processor);
        self.same(answer, expected, || {
            format!("first place of processor {processor}, {grid:?}")
        })
    }

    /// A fill into a list of so many entries, with bytes left over and bytes around it.
    pub fn grid_fill(&mut self, fill: &Fill, room: usize, expected: &Filling) -> Outcome {
        let list = GUARD..GUARD + 4 * room + room % (LEFT_OVER + 1);
        let mut memory = Memory::new(list.end + GUARD);
        self.fill(fill, &mut memory, list, expected)?;
        Ok(())
    }

    /// All calls that take no section, with what any numbers are to be answered.
    pub fn grid_elements(
        &mut self,
        grid: &Grid,
        indices: [i64; DIMENSIONS],
        processor: i64,
        address: i64,
    ) -> Outcome {
        self.grid_ownership(grid, indices, answers::ownership(grid, indices))?;
        let expected = answers::going_back(grid, processor, address);
        self.grid_going_back(grid, processor, address, expected)
    }

    /// The others.
    pub fn grid_section(&mut self, fill: &Fill, room: usize) -> Outcome {
        let Fill {
            grid, processor, ..
        } = fill;
        self.grid_steps(grid, answers::section_steps(grid))?;
        let expected = answers::first_place(grid, *processor);
        self.grid_first_place(grid, *processor, expected)?;
        self.grid_fill(fill, room, &answers::fill(fill, room))?;
        self.fill_nothing(fill, answers::fill(fill, 0).answer)
    }
}
