//! What a call is lent, how it is judged, and format and mount (document 01, "Calls").

use crate::apply::apply;
use crate::form::well_formed;
use crate::geometry::Geometry;
use crate::log::Log;
use crate::record::{Record, PROGRAMS};
use crate::refusal::{first, Refusal};
use crate::volume::Volume;

/// The three numbers and the three buffers of a call.
pub struct Lent<'a> {
    pub n: u64,
    pub b: u64,
    pub m: u64,
    pub server: &'a mut [u8],
    pub view: &'a mut [u8],
    pub log: &'a mut [u8],
}

/// What the buffers say before a call. The volumes and the log may be used only where neither
/// refusal 1 nor 2 holds, which every table asks first.
pub struct Found<'a> {
    geometry: Option<Geometry>,
    server_is_sound: bool,
    view: Option<Volume<&'a [u8]>>,
    log: Option<Log>,
}

impl Lent<'_> {
    /// The geometry, if the numbers are in range and all three lengths are right.
    fn geometry(&self) -> Option<Geometry> {
        let lengths_fit = |geometry: &Geometry| {
            self.server.len() == geometry.volume_length()
                && self.view.len() == geometry.volume_length()
                && self.log.len() == geometry.log_length()
        };
        Geometry::new(self.n, self.b, self.m).filter(lengths_fit)
    }

    /// Reads the buffers and checks the form of each by itself.
    pub fn look(&self) -> Found<'_> {
        let geometry = self.geometry();
        let sound = |bytes| geometry.map(|g| Volume::over(g, bytes)).filter(well_formed);
        Found {
            geometry,
            server_is_sound: sound(&*self.server).is_some(),
            view: sound(&*self.view),
            log: geometry.and_then(|g| Log::read(&g, self.log)),
        }
    }

    /// The server volume, of a call that has been accepted.
    pub fn server_volume(&mut self, geometry: Geometry) -> Volume<&mut [u8]> {
        Volume::over(geometry, &mut *self.server)
    }

    /// Notes the dependence that an accepted call on these operands brings.
    pub fn depend(&mut self, mut log: Log, program: u64, operands: &[u16]) {
        log.note(program as u8, operands);
        log.write(self.log);
    }

    /// Lets the operation of an accepted change or forder take its number, alter the view, wait in the log, and
    /// bring dependence. Gives the number.
    pub fn issue(&mut self, geometry: Geometry, log: Log, program: u64, record: Record) -> u64 {
        self.issue_in_turn(geometry, log, program, vec![record])
    }

    /// The same for a call that is several operations, one after another. Gives the first number.
    pub fn issue_in_turn(&mut self, geometry: Geometry, mut log: Log, program: u64, records: Vec<Record>) -> u64 {
        let first_number = log.next as u64;
        for mut record in records {
            record.sequence = log.next;
            record.program = program as u8;
            apply(&mut Volume::over(geometry, &mut *self.view), &record);
            log.note(record.program, &record.operands().collect::<Vec<u16>>());
            log.add(record);
        }
        log.write(self.log);
        first_number
    }
}

impl<'a> Found<'a> {
    /// Refusal 1: n, b, m or a length.
    pub fn wrong_buffer(&self) -> bool {
        self.geometry.is_none()
    }

    /// Refusal 2 in its first sense: the form of server volume, view or log.
    pub fn damaged(&self) -> bool {
        !self.server_is_sound || self.view.is_none() || self.log.is_none()
    }

    /// Refusal 3.
    pub fn bad_program(&self, program: u64) -> bool {
        program >= PROGRAMS
    }

    /// Refusal 4.
    pub fn marked(&self, program: u64) -> bool {
        self.log().is_marked(program)
    }

    /// Refusal 7 for one number.
    pub fn bad_number(&self, object: u64) -> bool {
        object >= self.geometry().n as u64
    }

    /// Refusal 13: fewer slots are free than the call has operations.
    pub fn log_full(&self, operations: usize) -> bool {
        self.log().free_slots(&self.geometry()) < operations
    }

    /// Refusal 14: fewer numbers are left than the call has operations.
    pub fn spent(&self, operations: usize) -> bool {
        self.log().numbers_left() < operations
    }

    pub fn geometry(&self) -> Geometry {
        self.geometry.expect("asked only where refusal 1 does not hold")
    }

    pub fn view(&self) -> &Volume<&'a [u8]> {
        self.view.as_ref().expect("asked only where refusals 1 and 2 do not hold")
    }

    pub fn log(&self) -> &Log {
        self.log.as_ref().expect("asked only where refusals 1 and 2 do not hold")
    }

    /// What an accepted call goes on with.
    pub fn keep(self) -> (Geometry, Log) {
        (self.geometry(), self.log.expect("asked only where refusals 1 and 2 do not hold"))
    }
}

/// Makes a server volume with only a root. It looks only at the numbers and at this length.
pub fn format(n: u64, b: u64, m: u64, server: &mut [u8]) -> Result<(), Refusal> {
    let geometry = Geometry::new(n, b, m).filter(|geometry| server.len() == geometry.volume_length());
    first(&[(Refusal::WrongBuffer, &|| geometry.is_none())])?;
    if let Some(geometry) = geometry {
        Volume::over(geometry, server).clear_to_root();
    }
    Ok(())
}

/// Checks the server volume, copies it to the view and begins an empty log.
pub fn mount(lent: &mut Lent) -> Result<(), Refusal> {
    let geometry = lent.geometry();
    let server_is_sound = || geometry.is_some_and(|g| well_formed(&Volume::over(g, &*lent.server)));
    first(&[(Refusal::WrongBuffer, &|| geometry.is_none()), (Refusal::Damaged, &|| !server_is_sound())])?;
    lent.view.copy_from_slice(lent.server);
    Log::empty().write(lent.log);
    Ok(())
}
