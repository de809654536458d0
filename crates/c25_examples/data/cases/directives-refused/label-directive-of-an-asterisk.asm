 .label *
