/* é */ SECTIONS { é }
