//! The calls that make a session, on both sides.
use super::*;

impl Both {
    /// The body check of a file that was made `valid`, or not.
    pub fn body_made(&mut self, start: u32, size: u32, valid: bool) {
        let r = self.body(start, size);
        self.equal("the answer, as the file was made", Body { no: 0, valid }, r);
        *if valid { &mut self.counts.valid } else { &mut self.counts.wrong } += 1;
    }

    pub fn body(&mut self, start: u32, size: u32) -> Body {
        self.last = format!("body check {start} {size}");
        let r = vwrite_body_check(&self.w, &self.fat[..self.lent.0], &self.area[..self.lent.1], start, size);
        self.counts.add("body check", r.no);
        let rust = if size < 128 {
            Body { no: 11, valid: false }
        } else {
            original::body(start, size).map_or(Body { no: 20, valid: false }, |valid| Body { no: 0, valid })
        };
        self.equal("the answer", rust, r);
        self.same();
        r
    }

    /// A start; `acceptable` is what document 01 says of the table.
    pub fn start(&mut self, files: &[File], first: u32, acceptable: bool) -> u8 {
        self.last = format!("start {first} with {} files", files.len());
        let n = vwrite_start(&mut self.w, files, first);
        self.counts.add("start", n);
        self.equal("the number", if acceptable { 0 } else { 10 }, n);
        if n == 0 {
            self.files = files.to_vec();
            for (set_table, set_state) in
                [(original::set_table as fn(&[File], u32), original::set_state as fn(&State)), (numbered::set_table, numbered::set_state)]
            {
                set_table(files, first);
                set_state(&State::new(first));
            }
        }
        self.same();
        n
    }

    fn ended(&mut self, call: &'static str, r: End, stale: bool, had: Option<bool>) -> End {
        self.counts.add(call, r.no);
        self.equal("the number", 0, r.no);
        self.same();
        // A release that ran, or was put off, makes the listing stale where the Rust's caller does it; put off, the end is held back.
        if stale {
            self.equal("what ended", original::take_stale() > 0, r.ended != 0);
        }
        if r.ended != 0 {
            self.equal("put off", self.w.end_at != 0, r.ended == 2);
        }
        if let Some(had) = had {
            self.equal("had", had, r.had);
        }
        r
    }

    pub fn poll(&mut self, clock: u64, mounted: bool) -> End {
        self.last = format!("poll {clock} mounted {mounted}");
        original::take_stale();
        original::poll(clock, mounted);
        numbered::poll(clock, mounted);
        let (fat, area) = (&self.fat[..self.lent.0], &self.area[..self.lent.1]);
        let r = vwrite_poll(&mut self.w, &mut self.files, clock, mounted, fat, area);
        self.ended("poll", r, true, None)
    }

    pub fn release(&mut self) -> End {
        self.last = "release".into();
        let had = original::release();
        numbered::release();
        let (fat, area) = (&self.fat[..self.lent.0], &self.area[..self.lent.1]);
        let r = vwrite_release(&mut self.w, &mut self.files, fat, area);
        self.ended("release", r, false, Some(had))
    }

    pub fn release_all(&mut self, reset: bool) -> End {
        self.last = format!("release_all {reset}");
        let had = original::release_all(reset);
        numbered::release_all(reset);
        let (fat, area) = (&self.fat[..self.lent.0], &self.area[..self.lent.1]);
        let r = vwrite_release_all(&mut self.w, &mut self.files, reset, fat, area);
        self.ended("release_all", r, false, Some(had))
    }

    pub fn bus_reset(&mut self) -> End {
        self.last = "vdisk's on_bus_reset".into();
        original::take_stale();
        original::vdisk_on_bus_reset();
        numbered::vdisk_on_bus_reset();
        let (fat, area) = (&self.fat[..self.lent.0], &self.area[..self.lent.1]);
        let r = vdisk_on_bus_reset(&mut self.w, &mut self.files, fat, area);
        self.ended("vdisk on_bus_reset", r, true, None)
    }

    pub fn mode_reset(&mut self) {
        self.last = "vwrite's on_bus_reset".into();
        original::vwrite_on_bus_reset();
        numbered::vwrite_on_bus_reset();
        vwrite_on_bus_reset(&mut self.w);
        self.counts.add("vwrite on_bus_reset", 0);
        self.same();
    }

    pub fn set_read_only(&mut self, on: bool) {
        self.last = format!("set_read_only {on}");
        original::set_read_only(on);
        numbered::set_read_only(on);
        vwrite_set_read_only(&mut self.w, on);
        self.counts.add("set_read_only", 0);
        self.same();
        let ours = (vwrite_read_only(&self.w), vwrite_read_only_pending(&self.w));
        self.equal("read_only, pending", (original::read_only(), original::read_only_pending()), ours);
        self.counts.add("read_only", 0);
        self.counts.add("read_only_pending", 0);
    }

    pub fn gone(&mut self, row: usize) -> u8 {
        self.last = format!("report gone {row}");
        let n = vwrite_report_gone(&mut self.files, row);
        self.counts.add("report_gone", n);
        let handed = original::table().get(row).is_some_and(|f| f.id & 0x7000 == 0x3000);
        self.equal("the number", if handed { 0 } else { 21 }, n);
        if handed {
            original::report_gone(row);
            numbered::report_gone(row);
        }
        self.same();
        n
    }

    pub fn find_handed(&mut self) -> Option<usize> {
        self.last = "find_handed".into();
        let r = vwrite_find_handed(&self.files);
        self.counts.add("find_handed", r.no);
        self.equal("is one handed", original::handed().is_some(), r.found);
        if r.found {
            self.equal("the row is handed", 0x3000, self.files[r.row].id & 0x7000);
        }
        r.found.then_some(r.row)
    }

    /// More than 400 files are refused by 10 at every call that is lent the table, and nothing changes.
    pub fn too_many(&mut self, files: &mut Vec<File>) {
        self.last = "calls with more than 400 files".into();
        let given = files.clone();
        let (fat, area) = (&self.fat[..self.lent.0], &self.area[..self.lent.1]);
        let w = &mut self.w;
        let numbers = [
            vwrite_poll(w, files, 1, false, fat, area).no,
            vwrite_release(w, files, fat, area).no,
            vwrite_release_all(w, files, true, fat, area).no,
            vdisk_on_bus_reset(w, files, fat, area).no,
            vwrite_report_gone(files, 0),
            vwrite_find_handed(files).no,
            vwrite_owner(files, 7, 9).no,
            vwrite_start(w, files, 7),
        ];
        self.equal("the numbers", [10; 8], numbers);
        self.equal("the given table", &given, &files.clone());
        self.counts.numbers[10] += 8;
        self.same();
    }
}
