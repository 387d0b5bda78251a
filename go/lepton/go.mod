module lepton

go 1.18
