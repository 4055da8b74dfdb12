//! Child module of disk_sector/data.rs.
use super::DiskData;
use shapes::Disk;

/// `vals` and `mean` stay 0: nothing in the text reads them.
pub(in crate::orientation::disk_sector) fn data(disk: &Disk) -> DiskData {
    let mut data = DiskData::new();
    let [xs, ys, vals_centered, grad_angles, grad_weights] = disk.runs;
    data.n = disk.count;
    data.val_energy = disk.val_energy;
    data.xs = xs;
    data.ys = ys;
    data.vals_centered = vals_centered;
    data.grad_angles = grad_angles;
    data.grad_weights = grad_weights;
    data
}
