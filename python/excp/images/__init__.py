"""Images of tapes and disks: what emulators such as Hercules keep in files (docs/FORMATS.md).

`read_image` of `reading` gives the medium of a file; `measured` judges one, and keeps its size.
Each format has one module: `aws` for tapes, plain and compressed (HET), `ckd` and `cckd` for
disks, plain and compressed.
"""
